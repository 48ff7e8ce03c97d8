# PostgreSQL for the client of a run: as the user postgres, since it doesn't run as root, and in the machine's own memory, where files keep their owners.
[ $(id -u) != 0 ] || exec setpriv --reuid postgres --regid postgres --clear-groups sh "$0"
export PATH=$(echo /usr/lib/postgresql/*/bin):$PATH
mkdir /dev/shm/data && cd /dev/shm && initdb -A trust -U postgres data >/dev/null || exit
echo host all all 10.8.0.0/24 trust >> data/pg_hba.conf
exec postgres -D data -h 10.8.0.2 -k /dev/shm 2>/dev/null
