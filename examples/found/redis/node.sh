#!/bin/sh
# A node of redis and a sentinel on one of the hosts n1, n2 and n3. n1 is the master at first; the sentinels write over the files.
unset CDPATH POSIXLY_CORRECT; export LC_ALL=C
cd "$HINGE_NET/$HINGE_HOST" || exit 1
cat >redis.conf <<END
bind 0.0.0.0
protected-mode no
save ""
appendonly yes
repl-diskless-sync-delay 0
replica-announce-ip $HINGE_HOST
END
[ "$HINGE_HOST" = n1 ] || echo replicaof n1 6379 >>redis.conf
cat >sentinel.conf <<END
protected-mode no
sentinel resolve-hostnames yes
sentinel announce-hostnames yes
sentinel announce-ip $HINGE_HOST
sentinel monitor m n1 6379 2
sentinel down-after-milliseconds m 1000
sentinel failover-timeout m 3000
END
redis-server redis.conf >log &
exec redis-server sentinel.conf --sentinel --port 26379 >sentinel.log
