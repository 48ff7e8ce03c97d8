/* The whole state of hinge-link, in parts. A function gets the part that it is about, or the host if it needs several parts. */
#pragma once
#include "acts.h"
#include "basics.h"
#include "carrier.h"
#include "changes.h"
#include "cuts.h"
#include "held.h"
#include "late_remarks.h"
#include "links.h"
#include "losses.h"
#include "pacing.h"
#include "page.h"
#include "passes.h"
#include "plan.h"
#include "rules.h"
#include "strangers.h"
#include "switches.h"
#include "transcript.h"
#include "unread.h"

struct host {
    struct clock clock;
    struct carrier carrier;
    struct page *page;
    struct transcript *transcript;
    struct links *links;
    struct held *held;
    struct losses *losses;
    struct passes *passes;
    struct late_remarks *late;
    struct pacing *pacing;
    struct cuts *cuts;
    struct acts *acts;
    struct switches *switches;
    struct strangers *strangers;
    struct changes *changes;
    struct unread *unread;
    struct rules rules;
    struct plan plan;
    int control;           /* a descriptor from which messages come while packets pass (control.h), or -1 */
    bool remarks_contents; /* whether the transcript remarks each packet's content, by which audits recognize the packet on another link */
};

/* Makes all parts that the plan (the text that tells hinge-link what to emulate) is about, for `ways` ways. */
void make_parts(struct host *host, int ways);
