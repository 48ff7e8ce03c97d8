#!/bin/sh
# A beanstalkd that syncs its log, on the host's disk, with each write.
mkdir -p "$HINGE_NET/$HINGE_HOST/log" && exec beanstalkd -b "$HINGE_NET/$HINGE_HOST/log" -f 0
