# The way to r1 by OSPF: by its own link, and once that is cut by r3.
sh "$HINGE_NET/ospf_router.sh" &
router=$!

way_by() {
  until ip -4 route | grep -q "^10.8.0.1 via .* dev to-$1 proto bird"; do sleep 0.1; done
  until ping -c 1 -W 1 -q r1 > /dev/null; do :; done
  echo "r1 is reached by $1"
}

way_by r1
way_by r3
kill $router
wait $router
echo converged
