#!/bin/sh
# A node of ZooKeeper on one of the hosts n1, n2 and n3, with its data on the host's disk. An empty node starts only with
# snapshot.trust.empty, as Debian's NEWS says.
unset CDPATH POSIXLY_CORRECT; export LC_ALL=C
cd "$HINGE_NET/$HINGE_HOST" && mkdir -p data && echo "${HINGE_HOST#n}" >data/myid || exit 1
cat >zoo.cfg <<END
tickTime=200
initLimit=20
syncLimit=5
dataDir=data
clientPort=2181
admin.enableServer=false
server.1=n1:2888:3888
server.2=n2:2888:3888
server.3=n3:2888:3888
END
exec java -XX:+UseSerialGC -Xmx64m -Dzookeeper.snapshot.trust.empty=true -cp /usr/share/java/zookeeper.jar \
    org.apache.zookeeper.server.quorum.QuorumPeerMain zoo.cfg >/dev/null 2>&1
