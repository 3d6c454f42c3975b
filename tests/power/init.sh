#!/bin/busybox sh
# The first process of the virtual machine of tests/power/power.py. It stops before it has seen the disk, so that the
# memory of the machine can be kept and each boot begins here. Two lines say how it continues: the file system, its
# options, the first number to send, how many messages to keep, the time, and how the device is formatted if there is
# none; and variables for the server, which make another program of it.
export PATH=/bin
/bin/busybox --install -s /bin
mount -t devtmpfs devices /dev
mount -t proc processes /proc
mount -t sysfs system /sys
mount -t tmpfs run /run
while read -r module; do
	insmod "/modules/$module" || echo "no module $module"
done < /modules/first
# What an emulated processor has translated for one program serves the next one, if it has the same addresses.
echo 0 > /proc/sys/kernel/randomize_va_space
stty -echo < /dev/console
echo waiting
read -r kind options first most now form
read -r variables
echo "begin: $kind $options"
date -s "@$now" > /run/date
while read -r module; do
	insmod "/modules/$module"
done < /modules/last
mount -t "$kind" -o "$options" /dev/vda /mnt || echo "end: no mount"
if [ ! -e /mnt/device ]; then
	# shellcheck disable=SC2086
	ipcd format /mnt/device $form 2> /run/progress && sync && echo made
fi
echo "check: $(ipcd check /mnt/device 2>&1)"
# shellcheck disable=SC2086
env $variables ipcd serve /mnt/device /run/socket > /run/said 2>&1 &
server=$!
until grep -q '^serving' /run/said; do
	[ -d "/proc/$server" ] || { echo "end: $(cat /run/said)"; sleep 1000; }
	sleep 0.05
done
sender /run/socket "$first" "$most"
echo "end: $(cat /run/said)"
sleep 1000
