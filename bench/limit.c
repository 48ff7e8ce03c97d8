/* How fast a replay can be: the report of `dummynet replay CONFIG PACKETS`, byte for byte, for the loads of loads.py, with all that a
   processor offers and without any proof. bench/replay.py compares the program with it; it is no part of the product.

   What makes it fast: the separators of 64 bytes are found by one comparison each, and then the numbers of 64 rows are made together;
   the flows of 64 rows are looked up in tight passes before the first of the rows is handled, so that the processor waits for many
   of them at once; a flow is one line of 64 bytes; a heap's key is one word, the tag above and the flow below; there is no heap of
   links, since no link touches another, so each is settled when a packet for it comes; and 16 digits are written together.

   What it lacks: quotes, leading zeros, histories, deletes, tags beyond 2^44, more than 2^20 flows, and configurations but those of
   loads.py. It ends with status 9 where it meets any of these. It needs AVX2 and BMI2.

   cc -O3 -march=x86-64-v3 bench/limit.c -o limit && ./limit CONFIG PACKETS > REPORT */
#define _GNU_SOURCE
#include <stdint.h>
#include <stdio.h>
#include <stdlib.h>
#include <string.h>
#include <fcntl.h>
#include <unistd.h>
#include <sys/mman.h>
#include <sys/stat.h>
#include <immintrin.h>
typedef uint64_t u64; typedef uint32_t u32; typedef uint16_t u16; typedef uint8_t u8; typedef unsigned __int128 u128;
#define PF(x) __builtin_prefetch(x)
#define LIKELY(x) __builtin_expect(!!(x),1)
#define UNL(x) __builtin_expect(!!(x),0)
static void die(const char*s){fprintf(stderr,"limit: %s\n",s);_exit(9);}
static void *big(size_t n){n=(n+(2<<20)-1)&~(size_t)((2<<20)-1);void*p=mmap(0,n,PROT_READ|PROT_WRITE,MAP_PRIVATE|MAP_ANONYMOUS|MAP_NORESERVE,-1,0);if(p==MAP_FAILED)die("mmap");  return p;}

// ---- configuration: what judges a row (a pipe or a queue) with its mask, and pipes; `only` is the flow of one without a mask ----
typedef struct {u32 src,dst;u16 sport,dport;u8 proto;} Tup;
typedef struct {u64 keyhi,keylo_mask; u32 loss; u32 limit; u8 kbytes,isqueue,weight,set; u32 pipe; u32 cls; u32 only; u64 mhi,mlo; u64 magic;} Tgt; // masks of the key
typedef struct {double bw; u64 delay; u32 link; u8 set;} Pip;
static Tgt *tp,*tq; static Pip *pp; static u32 ncls=0;

// ---- flows: one line of memory each, found by a table of words that have half a hash above and the flow's number below ----
typedef struct __attribute__((aligned(64))) { u64 khi,klo; u64 finish; u64 free_at /*own links*/; u32 epoch; u32 head,tail; u32 queued,bytes; u32 link; u16 hlen; u8 hw,own; u32 pad; } Flow;
typedef struct { u64 at; u32 row,packet,next; u16 len; u8 w; u8 pad; } Node; // at: of an own link's packet its start
static Flow *fl; static u32 nfl; static Node *nd; static u32 nnd, nfree=0;
static u64 *ht; static u32 hmask;
static inline u64 mix(u64 a,u64 b){u128 m=(u128)(a^0x9e3779b97f4a7c15ull)*(b^0xd1b54a32d192ed03ull);u64 x=(u64)m^(u64)(m>>64);m=(u128)x*0xa0761d6478bd642full;return (u64)m^(u64)(m>>64);}
static inline u32 alloc_node(void){ if(nfree){u32 n=nfree;nfree=nd[n].next;return n;} return ++nnd; }
static inline void free_node(u32 n){nd[n].next=nfree;nfree=n;}

// ---- links that queues share: WF2Q+, by a heap of flows that may be picked, by finish tags, and one of those that wait, by start tags ----
#define D 4 /* children of a place of a heap */
typedef struct {u64 *a; u32 n;} Heap;           // key<<20|flow
typedef struct {u64 k,f;} WE;
typedef struct {WE *a; u32 n;} WHeap;
typedef struct {Heap e; WHeap w; u64 v; u64 W; u32 epoch; u64 free,last_due; u32 pipe;} Link;
static Link *lk; static u32 nlk;
#define SH 20
static inline void hpush(Heap*h,u64 k){u64*a=h->a;u32 i=h->n++;while(i){u32 p=(i-1)/D;if(a[p]<=k)break;a[i]=a[p];i=p;}a[i]=k;}
static inline void hsift(Heap*h,u64 k){u64*a=h->a;u32 n=h->n,i=0;for(;;){u32 c=D*i+1;if(c+D<=n){u32 m=c;u64 x=a[c];
  u64 b=a[c+1];u32 m1=c+(b<x);u64 x1=b<x?b:x; u64 y=a[c+2],z=a[c+3];u32 m2=c+2+(z<y);u64 y2=z<y?z:y; m=y2<x1?m2:m1;x=y2<x1?y2:x1;
  if(x>=k)break;a[i]=x;i=m;}
  else{ if(c>=n)break;u32 m=c;for(u32 j=c+1;j<n;j++)if(a[j]<a[m])m=j;if(a[m]>=k)break;a[i]=a[m];i=m;} }a[i]=k;}
static inline void hpop(Heap*h){u64 k=h->a[--h->n];if(h->n)hsift(h,k);}
static inline void wpush(WHeap*h,WE k){WE*a=h->a;u32 i=h->n++;while(i){u32 p=(i-1)/D;if(a[p].k<=k.k)break;a[i]=a[p];i=p;}a[i]=k;}
static inline void wsift(WHeap*h,WE k){WE*a=h->a;u32 n=h->n,i=0;for(;;){u32 c=D*i+1;if(c>=n)break;u32 m=c;
  if(LIKELY(c+D<=n)){
   u32 m1=c+(a[c+1].k<a[c].k),m2=c+2+(a[c+3].k<a[c+2].k);m=a[m2].k<a[m1].k?m2:m1;
  } else for(u32 j=c+1;j<n;j++)if(a[j].k<a[m].k)m=j;
  if(a[m].k>=k.k)break;a[i]=a[m];i=m;}a[i]=k;}
static inline void wpop(WHeap*h){WE k=h->a[--h->n];if(h->n)wsift(h,k);}
static inline u64 cost(u32 len,u32 w){return w==1?(u64)len<<16:(len<<16)/w;}

// ---- what goes out: deliveries, in order of due moments unless `sorted` is 0, and all other rows ----
typedef struct {u64 due,start,at;u32 row,packet,flow,pad;} Del;
static Del *del; static u32 ndel; static u64 lastdue=0; static int sorted=1;
typedef struct {u64 at;u32 row,flow,kind;} Oth; static Oth *ot; static u32 not_;
static inline void deliver(u64 due,u64 start,u64 at,u32 row,u32 packet,u32 flow){
  Del*d=&del[ndel++];d->due=due;d->start=start;d->at=at;d->row=row;d->packet=packet;d->flow=flow;
  if(due<lastdue)sorted=0; lastdue=due; }
static inline u64 txt_(double bw,u32 len){ if(bw==0)return 0; double x=(double)((u64)len*8000000000ull)+bw-1; return (u64)(x/bw);} 

// Starts all packets of a link that start up to now.
static void settle(Link*l,u64 now){
  Pip*p=&pp[l->pipe];
  while(l->free<=now && (l->e.n|l->w.n)){
    if(!l->e.n){u64 s=l->w.a[0].k>>SH;if(s>l->v)l->v=s;}
    while(l->w.n && (l->w.a[0].k>>SH)<=l->v){u64 f=l->w.a[0].f;wpop(&l->w);hpush(&l->e,f);}
    u64 top=l->e.a[0];u32 n=top&((1<<SH)-1);u64 f=top>>SH;
    Flow*fw=&fl[n];u32 h=fw->head;Node*nn=&nd[h];
    u32 len=fw->hlen;
    u64 start=l->free;l->free=start+txt_(p->bw,len);u64 due=l->free+p->delay;if(due<l->last_due)due=l->last_due;l->last_due=due;
    deliver(due,start,nn->at,nn->row,nn->packet,n);
    l->v+= l->W>>32?0:(u32)(len<<16)/(u32)l->W;
    l->W-=fw->hw;
    fw->queued--;fw->bytes-=len;
    u32 nx=nn->next;free_node(h);
    if(!fw->queued){hpop(&l->e);}
    else{ Node*q=&nd[nx];fw->head=nx;fw->hlen=q->len;fw->hw=q->w;l->W+=q->w;u64 fin=f+cost(q->len,q->w);fw->finish=fin;
      if(UNL(fin>>(64-SH)))die("tags too large");
      if(f<=l->v){hsift(&l->e,fin<<SH|n);}
      else{hpop(&l->e);wpush(&l->w,(WE){f<<SH|n,fin<<SH|n});} }
    if(l->e.n){Flow*g=&fl[l->e.a[0]&((1<<SH)-1)];PF(g);}
    if(l->w.n)PF(&fl[l->w.a[0].k&((1<<SH)-1)]);
  }
}
static u64 now_=0; static u32 nacc=0,nrow=0;
// Twice as many slots.
static void grow_hash(void){u32 om=hmask;u64*o=ht;hmask=om*2+1;ht=big((size_t)(hmask+1)*8);for(u32 i=0;i<=om;i++)if(o[i]){u32 f=(u32)o[i]-1;u64 h=mix(fl[f].khi,fl[f].klo);u32 j=h&hmask;while(ht[j])j=(j+1)&hmask;ht[j]=o[i];}munmap(o,(size_t)(om+1)*8);}
// The flow of a key, -1 for none.
static inline int64_t find(u64 khi,u64 klo,u64 h){u32 j=h&hmask;u64 s;while((s=ht[j])){if((s>>32)==(h>>32)){u32 f=(u32)s-1;if(fl[f].khi==khi&&fl[f].klo==klo)return f;}j=(j+1)&hmask;}return -1;}
// A new flow.
static u32 make(Tgt*t,u64 khi,u64 klo,u64 h){
  if(nfl+1>(hmask>>1))grow_hash();
  u32 j=h&hmask;while(ht[j])j=(j+1)&hmask;u32 n=nfl++;if(n>>SH)die("flows");ht[j]=(h>>32<<32)|(n+1);
  Flow*f=&fl[n];f->khi=khi;f->klo=klo;
  if(t->isqueue){Pip*p=&pp[t->pipe];if(p->link==~0u){p->link=nlk++;Link*l=&lk[p->link];l->pipe=t->pipe;l->e.a=big(8ull<<SH);l->w.a=big(16ull<<SH);} f->link=p->link;f->own=0;}else f->own=1;
  if(!t->mhi&&!t->mlo)t->only=n; return n;}

// ---- 64 rows at once: first the slots of their flows, then the flows, then their queues, and only then row by row ----
#define B 64 /* rows */
typedef struct {u64 moment;Tgt*t;u64 khi,klo,h;u32 word,len;int64_t f;} R;
// A row: what has started is settled, then the packet is lost, refused, started at once, or put behind those that wait.
static inline void one(R*r){
  nrow++;
  if(r->moment>now_)now_=r->moment;
  u64 now=now_;Tgt*t=r->t;
  if(UNL(!t->set)){ot[not_++]=(Oth){now,nrow,0,2};return;}
  u32 n;
  if(t->only!=~0u)n=t->only; else if(LIKELY(r->f>=0))n=r->f; else {int64_t k=find(r->khi,r->klo,r->h);n=k>=0?(u32)k:make(t,r->khi,r->klo,r->h);}
  Flow*f=&fl[n];
  if(!f->own){
    Link*l=&lk[f->link];
    if(l->free<=now)settle(l,now);
    if(UNL((r->word&0x7fffffff)<t->loss)){ot[not_++]=(Oth){now,nrow,n,0};return;}
    if(UNL(t->kbytes?f->bytes>t->limit:f->queued>=t->limit)){ot[not_++]=(Oth){now,nrow,n,1};return;}
    u32 id=nacc++;
    if(l->free<=now){
      l->epoch++;u64 c=cost(r->len,t->weight);f->epoch=l->epoch;f->finish=c;l->v=c;
      Pip*p=&pp[l->pipe];l->free=now+txt_(p->bw,r->len);u64 due=l->free+p->delay;if(due<l->last_due)due=l->last_due;l->last_due=due;
      deliver(due,now,now,nrow,id,n);
    } else {
      u32 a=alloc_node();Node*q=&nd[a];q->at=now;q->row=nrow;q->packet=id;q->len=r->len;q->w=t->weight;
      if(!f->queued){
        u64 last=f->epoch==l->epoch?f->finish:0;u64 s=last>l->v?last:l->v;u64 fin=s+cost(r->len,t->weight);
        if(UNL(fin>>(64-SH)))die("tags too large");
        f->epoch=l->epoch;f->finish=fin;l->W+=t->weight;f->hlen=r->len;f->hw=t->weight;f->head=a;
        if(s<=l->v)hpush(&l->e,fin<<SH|n);else wpush(&l->w,(WE){s<<SH|n,fin<<SH|n});
      } else nd[f->tail].next=a;
      f->tail=a;f->queued++;f->bytes+=r->len;
    }
  } else {
    while(f->queued && nd[f->head].at<=now){u32 h=f->head;Node*q=&nd[h];f->queued--;f->bytes-=q->len;f->head=q->next;free_node(h);}
    if(UNL((r->word&0x7fffffff)<t->loss)){ot[not_++]=(Oth){now,nrow,n,0};return;}
    if(UNL(t->kbytes?f->bytes>t->limit:f->queued>=t->limit)){ot[not_++]=(Oth){now,nrow,n,1};return;}
    u32 id=nacc++;Pip*p=&pp[t->pipe];
    u64 start=now;
    if(f->free_at>now){ start=f->free_at;
      u32 a=alloc_node();Node*q=&nd[a];q->at=start;q->len=r->len;if(f->queued)nd[f->tail].next=a;else f->head=a;f->tail=a;f->queued++;f->bytes+=r->len; }
    f->free_at=start+txt_(p->bw,r->len);u64 due=f->free_at+p->delay; if(due<f->finish)due=f->finish; f->finish=due; // last due
    deliver(due,start,now,nrow,id,n);
  }
}
// The passes.
static inline void batch(R*r,u32 n){
  for(u32 i=0;i<n;i++){ if(r[i].t->only==~0u){r[i].h=mix(r[i].khi,r[i].klo);PF(&ht[r[i].h&hmask]);} }
  for(u32 i=0;i<n;i++){ r[i].f=-1; if(r[i].t->only==~0u){u64 h=r[i].h;u32 j=h&hmask;u64 s;while((s=ht[j])){if((s>>32)==(h>>32)){PF(&fl[(u32)s-1]);break;}j=(j+1)&hmask;}} }
  for(u32 i=0;i<n;i++){ if(r[i].t->only==~0u){ r[i].f=find(r[i].khi,r[i].klo,r[i].h); if(r[i].f>=0){Flow*f=&fl[r[i].f];if(f->queued){PF(&nd[f->own?f->head:f->tail]);}} } }
  for(u32 i=0;i<n;i++) one(&r[i]);
}
// ---- reading: a word of eight letters a number, right-aligned, and all words of 64 rows made numbers together ----
static inline __m256i dig8(__m256i x){ // four times eight digits
  x=_mm256_maddubs_epi16(x,_mm256_set1_epi16(0x010a));             // 10*a+b
  x=_mm256_madd_epi16(x,_mm256_set1_epi32(0x00010064));            // 100*a+b
  x=_mm256_packus_epi32(x,x);
  x=_mm256_madd_epi16(x,_mm256_set1_epi32(0x00012710));            // 10000*a+b : lanes of 32, twice
  return x; }
static u32 pos[1<<17]; static u8 *kd,*kn; // separators' places, kinds
#define FLD 11
static u64 fw_[FLD][B]; static u32 oc[2][B];
static u64 bad=0;
static inline u64 grab(const u8*b,u32 s,u32 e){u32 n=e-s;return n?*(const u64*)(b+s)<<(64-8*n):0;}
// Rows whose 16 separators each stand in ps: checks them, makes their numbers, and handles them.
static void rows(const u8*b,const u32*ps,u32 from,u32 n,const u16*dots,const u16*nls){
  static R r[B];
  static u64 o8[8][B];
  u32 s=from;
  for(u32 i=0;i<n;i++,ps+=16){
    bad|=(dots[i]^0x03b8)|(nls[i]^0x8000);
    u32 m=ps[0];u32 ml=m-s;
    if(UNL(ml-1>15))die("moment");
    if(ml>8){fw_[0][i]=grab(b,s,m-8);fw_[1][i]=*(const u64*)(b+m-8);}else{fw_[0][i]=0;fw_[1][i]=grab(b,s,m);}
    u32 tl=ps[1]-m; // ",queue" 6, ",pipe" 5
    u64 wd=*(const u64*)(b+m+1);
    int q=tl==6;
    bad|= q?((wd&0xffffffffffull)^0x6575657571ull):((wd&0xffffffffull)^0x65706970ull)|(tl^5);
    u32 w0=ps[14]+1,w1=ps[15];u32 wl=w1-w0;if(UNL(wl-1>9))die("word");
    fw_[2][i]=grab(b,ps[1]+1,ps[2]);
    fw_[3][i]=grab(b,ps[10]+1,ps[11]);fw_[4][i]=grab(b,ps[11]+1,ps[12]);fw_[5][i]=grab(b,ps[12]+1,ps[13]);fw_[6][i]=grab(b,ps[13]+1,ps[14]);
    if(wl>8){fw_[7][i]=grab(b,w0,w1-8);fw_[8][i]=*(const u64*)(b+w1-8);}else{fw_[7][i]=0;fw_[8][i]=grab(b,w0,w1);}
    // octets: four digits each
    for(int k=0;k<8;k++){u32 a=ps[k<4?2+k:2+k]+1,e=ps[3+k];u32 l=e-a;bad|=(l-1)>>2;((u32*)o8)[i*8+k]=*(const u32*)(b+a)<<(32-8*l);}
    r[i].t=q?tq:tp;
    s=w1+1;
  }
  // vertical
  const __m256i f0=_mm256_set1_epi8(0x0f),c6=_mm256_set1_epi8(0x06),hi=_mm256_set1_epi8((char)0xf0);
  __m256i er=_mm256_setzero_si256();
  u32 res[9][B];
  for(int k=0;k<9;k++) for(u32 i=0;i<n;i+=4){ __m256i x=_mm256_loadu_si256((void*)&fw_[k][i]);
     // a byte is 0 or a digit: 0x30..0x39
     __m256i y=_mm256_and_si256(x,f0); __m256i t=_mm256_and_si256(_mm256_or_si256(x,_mm256_add_epi8(y,c6)),hi); // 0x30 or 0
     __m256i nz=_mm256_cmpeq_epi8(x,_mm256_setzero_si256());
     er=_mm256_or_si256(er,_mm256_andnot_si256(nz,_mm256_xor_si256(t,_mm256_set1_epi8(0x30))));
     y=dig8(y); __m256i pr=_mm256_permutevar8x32_epi32(y,_mm256_setr_epi32(0,1,4,5,0,1,4,5)); _mm_storeu_si128((void*)&res[k][i],_mm256_castsi256_si128(pr)); }
  for(u32 i=0;i<n;i++){ __m256i x=_mm256_loadu_si256((void*)&((u32*)o8)[i*8]); __m256i y=_mm256_and_si256(x,f0);
     __m256i t=_mm256_and_si256(_mm256_or_si256(x,_mm256_add_epi8(y,c6)),hi);__m256i nz=_mm256_cmpeq_epi8(x,_mm256_setzero_si256());
     er=_mm256_or_si256(er,_mm256_andnot_si256(nz,_mm256_xor_si256(t,_mm256_set1_epi8(0x30))));
     y=_mm256_maddubs_epi16(y,_mm256_set1_epi16(0x010a)); y=_mm256_madd_epi16(y,_mm256_set1_epi32(0x00010064));
     // eight u32, each <=9999: check <256, pack to bytes
     __m256i g=_mm256_srli_epi32(y,8); er=_mm256_or_si256(er,g);
     __m128i p=_mm_packus_epi32(_mm256_castsi256_si128(y),_mm256_extracti128_si256(y,1)); p=_mm_packus_epi16(p,p); u64 both=_mm_cvtsi128_si64(p);
     u32 src=__builtin_bswap32((u32)both),dst=__builtin_bswap32((u32)(both>>32));
     u32 num=res[2][i];u32 pr=res[3][i],sp=res[4][i],dp=res[5][i],len=res[6][i];
     bad|=(num-1)>>16|pr>>8|sp>>16|dp>>16|(len-1)>>16;
     Tgt*tt=r[i].t+(num&65535);r[i].t=tt;
     u64 khi=(u64)src<<32|dst,klo=(u64)pr<<32|(u64)sp<<16|dp;
     r[i].khi=khi&tt->mhi;r[i].klo=(klo&tt->mlo)|(u64)tt->cls<<40;
     r[i].moment=(u64)res[0][i]*100000000u+res[1][i];
     u64 w=(u64)res[7][i]*100000000u+res[8][i];bad|=w>>32;r[i].word=w;r[i].len=len; }
  if(UNL(bad|!_mm256_testz_si256(er,er)))die("a row");
  batch(r,n);
}
// A text of whole rows.
static void feed(const u8*b,size_t len){ // whole rows only
  static u64 dbits[1<<11],nbits[1<<11];
  u32 np=0;u64 dacc=0,nacc_=0;u32 nb=0,nw=0;
  u32 from=0,done=0;
  for(size_t o=0;o<len;o+=64){
    __m256i a=_mm256_loadu_si256((void*)(b+o)),c=_mm256_loadu_si256((void*)(b+o+32));
    const __m256i z=_mm256_set1_epi8('/'),dt=_mm256_set1_epi8('.'),nl=_mm256_set1_epi8('\n');
    u64 sp=(u32)_mm256_movemask_epi8(_mm256_cmpgt_epi8(z,a))|(u64)(u32)_mm256_movemask_epi8(_mm256_cmpgt_epi8(z,c))<<32;
    u64 ds=(u32)_mm256_movemask_epi8(_mm256_cmpeq_epi8(dt,a))|(u64)(u32)_mm256_movemask_epi8(_mm256_cmpeq_epi8(dt,c))<<32;
    u64 ns=(u32)_mm256_movemask_epi8(_mm256_cmpeq_epi8(nl,a))|(u64)(u32)_mm256_movemask_epi8(_mm256_cmpeq_epi8(nl,c))<<32;
    if(UNL(len-o<64)){u64 k=(1ull<<(len-o))-1;sp&=k;ds&=k;ns&=k;}
    u32 cnt=__builtin_popcountll(sp);u64 dk=_pext_u64(ds,sp),nk=_pext_u64(ns,sp);
    u64 t=sp;u32*q=pos+np;
    for(int j=0;j<16;j++){q[j]=o+_tzcnt_u64(t);t=_blsr_u64(t);}
    if(UNL(cnt>16)){for(u32 j=16;j<cnt;j++){q[j]=o+_tzcnt_u64(t);t=_blsr_u64(t);}}
    np+=cnt;
    if(cnt){dacc|=dk<<nb;nacc_|=nk<<nb;u32 nn=nb+cnt;if(nn>=64){dbits[nw]=dacc;nbits[nw]=nacc_;nw++;dacc=nb?dk>>(64-nb):0;nacc_=nb?nk>>(64-nb):0;nb=nn-64;if(!nb)dacc=nacc_=0;}else nb=nn;}
  }
  dbits[nw]=dacc;nbits[nw]=nacc_;
  if(np&15)die("fields");
  u32 nr=np/16;
  while(done<nr){u32 n=nr-done<B?nr-done:B;rows(b,pos+done*16,from,n,(u16*)dbits+done,(u16*)nbits+done);from=pos[(done+n)*16-1]+1;done+=n;}
}
// ---- writing: eight digits a half of a register, and the zeros at their front shifted away ----
static u8*out;
// The digits of two numbers below 10^8.
static inline __m128i digits16(u32 hi,u32 lo){ // two times eight digits, in order
  __m128i x=_mm_set_epi64x(lo,hi);
  // /10000
  __m128i q=_mm_srli_epi64(_mm_mul_epu32(x,_mm_set1_epi64x(3518437209u)),45);
  __m128i r=_mm_sub_epi32(x,_mm_mul_epu32(q,_mm_set1_epi64x(10000)));
  __m128i v=_mm_or_si128(q,_mm_slli_epi64(r,32)); // four u32 <10000
  __m128i q2=_mm_srli_epi32(_mm_mulhi_epu16(v,_mm_set1_epi32(5243)),3); // /100 (v<10000: v*5243>>19)
  __m128i r2=_mm_sub_epi16(v,_mm_mullo_epi16(q2,_mm_set1_epi32(100)));
  __m128i w=_mm_or_si128(q2,_mm_slli_epi32(r2,16)); // eight u16 <100
  __m128i q3=_mm_srli_epi16(_mm_mullo_epi16(w,_mm_set1_epi16(103)),10); // /10 for <100
  __m128i r3=_mm_sub_epi16(w,_mm_mullo_epi16(q3,_mm_set1_epi16(10)));
  __m128i d=_mm_or_si128(q3,_mm_slli_epi16(r3,8));
  return d; }
static u8 shuf[17][16];
static inline u8* putd(u8*o,__m128i d){ // a comma behind
  u32 nz=~_mm_movemask_epi8(_mm_cmpeq_epi8(d,_mm_setzero_si128()))&0xffff; u32 lead=_tzcnt_u32(nz|0x8000);
  d=_mm_or_si128(d,_mm_set1_epi8('0'));
  d=_mm_shuffle_epi8(d,_mm_loadu_si128((void*)shuf[lead]));
  _mm_storeu_si128((void*)o,d);o+=16-lead;*o=',';return o+1; }
static inline u8* put(u8*o,u64 n){ if(UNL(n>=10000000000000000ull))die("number"); u32 hi=n/100000000u,lo=n%100000000u; return putd(o,digits16(hi,lo)); }
// two numbers below 1e8 at once
static inline u8* put2(u8*o,u32 a,u32 b){ if(UNL(a>=100000000u||b>=100000000u)){o=put(o,a);return put(o,b);} 
  __m128i d=digits16(a,b); u64 x=_mm_cvtsi128_si64(d),y=_mm_extract_epi64(d,1);
  u32 lx=_tzcnt_u64(x|1ull<<56)>>3,ly=_tzcnt_u64(y|1ull<<56)>>3;
  x|=0x3030303030303030ull;y|=0x3030303030303030ull;
  *(u64*)o=x>>(8*lx);o+=8-lx;*o++=',';*(u64*)o=y>>(8*ly);o+=8-ly;*o++=',';return o; }
// The line of a delivery.
static u8*lineout(u8*o,const Del*d){
  memcpy(o,"out,",4);o+=4;o=put2(o,d->row,d->flow);
  o=put(o,d->packet);o=put(o,d->at);o=put(o,d->start);o=put(o,d->due);o[-1]='\n';return o; }
static void flush(u8*from,u8*to){while(from<to){ssize_t k=write(1,from,to-from);if(k<=0)die("write");from+=k;}}
// ---- the whole ----
static u64 unit(const char*s){char*e;double v=strtod(s,&e);u64 m=1;if(*e=='K')m=1000;if(*e=='M')m=1000000;if(*e=='G')m=1000000000;return (u64)(v*m);} 
// Reads the configuration lines of loads.py.
static void config(char*text){
  char*sv;for(char*l=strtok_r(text,"\n",&sv);l;l=strtok_r(0,"\n",&sv)){
    char*s2;char*w=strtok_r(l," ",&s2);if(!w)continue;int q=!strcmp(w,"queue");u32 n=atoi(strtok_r(0," ",&s2));strtok_r(0," ",&s2);
    Tgt*t=(q?tq:tp)+n;t->set=1;t->isqueue=q;t->weight=1;t->limit=50;t->pipe=n;t->only=~0u;t->cls=ncls++;Pip*p=&pp[n];if(!q){p->set=1;p->link=~0u;}
    while((w=strtok_r(0," ",&s2))){
      if(!strcmp(w,"mask")){while((w=strtok_r(0," ",&s2))){
         if(!strcmp(w,"all")){t->mhi=~0ull;t->mlo=0xffffffffffull;}
         else{u64 v=strtoull(strtok_r(0," ",&s2),0,0);if(!strcmp(w,"src-ip"))t->mhi|=v<<32;if(!strcmp(w,"dst-ip"))t->mhi|=v;if(!strcmp(w,"src-port"))t->mlo|=v<<16;if(!strcmp(w,"dst-port"))t->mlo|=v;if(!strcmp(w,"proto"))t->mlo|=v<<32;}}
        break;}
      char*v=strtok_r(0," ",&s2);
      if(!strcmp(w,"bw"))p->bw=unit(v);if(!strcmp(w,"delay"))p->delay=(u64)atoi(v)*1000000;
      if(!strcmp(w,"queue")){char*e;t->limit=strtoul(v,&e,10);if(*e=='K'){t->kbytes=1;t->limit*=1024;}}
      if(!strcmp(w,"plr"))t->loss=(u32)(strtod(v,0)*2147483648.0);
      if(!strcmp(w,"weight"))t->weight=atoi(v);if(!strcmp(w,"pipe"))t->pipe=atoi(v);
    } } }
int main(int c,char**v){
  if(c<3)die("CONFIG PACKETS");
  tp=big(65536*sizeof(Tgt));tq=big(65536*sizeof(Tgt));pp=big(65536*sizeof(Pip));lk=big(65536*sizeof(Link));
  int fd=open(v[1],O_RDONLY);static char ct[1<<20];ssize_t k=read(fd,ct,sizeof ct-1);ct[k]=0;close(fd);
  config(ct);
  for(int l=0;l<17;l++)for(int i=0;i<16;i++)shuf[l][i]=i+l<16?i+l:0x80;
  fd=open(v[2],O_RDONLY);struct stat st;fstat(fd,&st);u64 most=st.st_size/36+1;
  fl=big(sizeof(Flow)<<SH);nd=big((most+2)*sizeof(Node));del=big((most+1)*sizeof(Del));ot=big((most+1)*sizeof(Oth));
  hmask=1023;ht=big((hmask+1)*8);
#define CH (1<<17)
  static u8 buf[CH+65536+128] __attribute__((aligned(64)));u32 have=0;int head=1;
  for(;;){ ssize_t g=read(fd,buf+have,CH);if(g<0)die("read");u32 tot=have+g;if(!tot)break;
    u32 end=tot;if(g){u8*e=memrchr(buf,'\n',tot);if(!e)die("long");end=e-buf+1;}else if(buf[tot-1]!='\n'){buf[tot]='\n';end=tot=tot+1;}
    u32 s=0;if(head){u8*e=memchr(buf,'\n',tot);s=e-buf+1;if(s!=56)die("header");head=0;}
    feed(buf+s,end-s);
    memmove(buf,buf+end,tot-end);have=tot-end;if(!g)break; }
  for(u32 i=0;i<nlk;i++)settle(&lk[i],1ull<<62);
  static u8 ob[(1<<18)+1024];u8*o=ob;
  memcpy(o,"event,row,flow,packet,at,start,due\n",35);o+=35;
  if(sorted&&(nlk<=1)){ // ties by packet: one link starts in order of picks, equal dues only where bw is 0
    for(u32 i=0;i<ndel;i++){if(i+8<ndel)PF(&del[i+8]);o=lineout(o,&del[i]);if(o-ob>1<<18){flush(ob,o);o=ob;}}
  } else {
    u64 lo=~0ull,hi=0;for(u32 i=0;i<ndel;i++){if(del[i].due<lo)lo=del[i].due;if(del[i].due>hi)hi=del[i].due;}
    int sh=0;while(((hi-lo)>>sh)>ndel/4)sh++;
    u32 nb=((hi-lo)>>sh)+2;u32*cnt=big(4ull*(nb+1));typedef struct{u64 due;u32 packet,i;}S;S*ss=big(sizeof(S)*(u64)ndel);
    for(u32 i=0;i<ndel;i++)cnt[((del[i].due-lo)>>sh)+1]++;
    for(u32 i=0;i<nb;i++)cnt[i+1]+=cnt[i];
    for(u32 i=0;i<ndel;i++){u32 j=cnt[(del[i].due-lo)>>sh]++;ss[j]=(S){del[i].due,del[i].packet,i};}
    // now nearly sorted: insertion
    for(u32 i=1;i<ndel;i++){S x=ss[i];u32 j=i;while(j&&(ss[j-1].due>x.due||(ss[j-1].due==x.due&&ss[j-1].packet>x.packet))){ss[j]=ss[j-1];j--;}ss[j]=x;}
    for(u32 i=0;i<ndel;i++){if(i+16<ndel)PF(&del[ss[i+16].i]);o=lineout(o,&del[ss[i].i]);if(o-ob>1<<18){flush(ob,o);o=ob;}}
  }
  for(u32 i=0;i<not_;i++){Oth*t=&ot[i];
    if(t->kind==2){memcpy(o,"none,",5);o+=5;o=put(o,t->row);*o++=',';*o++=',';}
    else{memcpy(o,t->kind?"full,":"lost,",5);o+=5;o=put2(o,t->row,t->flow);*o++=',';}
    o=put(o,t->at);*o++=',';*o++='\n';
    if(o-ob>1<<18){flush(ob,o);o=ob;}}
  flush(ob,o);return 0; }
