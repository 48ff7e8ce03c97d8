# BIRD as a router of OSPF on all links of this host, whose own address it tells the others.
folder=${TMPDIR:-/tmp}/hinge-ospf.$HINGE_HOST.$$
mkdir "$folder"
trap 'rm -r "$folder"' EXIT
own=$(ip -o -4 address show dev lo scope global | awk '{ sub("/.*", "", $4); print $4 }')
cat > "$folder/bird.conf" <<END
router id $own;
protocol device { scan time 1; }
protocol kernel { ipv4 { export all; import none; }; }
protocol direct { ipv4; interface "lo"; }
protocol ospf v2 {
  tick 1;
  ipv4 { import all; export none; };
  area 0 { interface "to-*" { type ptp; hello 1; dead 4; }; interface "lo" { stub; }; };
}
END
bird -f -c "$folder/bird.conf" -s "$folder/control" &
bird=$!
trap 'kill $bird' TERM
wait $bird
wait $bird
