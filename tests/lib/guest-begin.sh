# What the first program of each virtual machine begins with, which the guest has as /begin: the commands of busybox, devices,
# the console as input and output, and the modules of Linux that /settings names in `modules`, in their order, as far
# as this kernel has them apart.
# shellcheck shell=dash disable=SC2154
/bin/busybox --install -s /bin
export PATH=/bin
mount -t devtmpfs dev /dev
mount -t proc proc /proc
exec < /dev/console > /dev/console 2>&1
# shellcheck source=/dev/null
. /settings
for module in $modules; do
    [ ! -e "/modules/$module.ko" ] || insmod "/modules/$module.ko"
done
