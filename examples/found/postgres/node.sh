#!/bin/sh
# A node of PostgreSQL on one of the hosts n1, the primary at first, and n2, its standby, with its data on the host's disk. More options of
# postgres may follow. PostgreSQL refuses to run as root.
unset CDPATH POSIXLY_CORRECT; export LC_ALL=C
if [ "$(id -u)" = 0 ]; then
    chown postgres "$HINGE_NET/$HINGE_HOST"
    exec setpriv --reuid postgres --regid postgres --clear-groups sh "$0" "$@"
fi
PATH=$(echo /usr/lib/postgresql/*/bin):$PATH
cd "$HINGE_NET/$HINGE_HOST" || exit 1
if [ ! -e ready ] && [ "$HINGE_HOST" = n1 ]; then
    initdb -A trust -U postgres data >/dev/null 2>&1 && printf 'host %s all all trust\n' all replication >>data/pg_hba.conf
fi
while [ ! -e ready ] && [ "$HINGE_HOST" != n1 ] && ! pg_basebackup -h n1 -U postgres -c fast -R -D data 2>/dev/null; do
    rm -rf data
    sleep 1
done
touch ready && sync
exec postgres -D data -k '' -c listen_addresses='*' "$@" 2>>log
