#!/usr/bin/env bash
# Starts systemd as the first process of a machine of its own, which runs one program and ends: tests/system/boot.sh FOLDER PROGRAM..
#
# The machine's files are those of this one below a layer in memory, so that nothing here is changed. FOLDER is /given there; the output
# of the program is FOLDER/told. Needs root, namespaces, overlayfs and cgroup2; the end of this script is the end of all processes there.
set -eu

if [[ -z ${RDS_STEP:-} ]]; then
  exec env RDS_STEP=group unshare --mount --propagation private "$0" "$@"
fi

if [[ $RDS_STEP == group ]]; then
  # A group of processes that systemd may divide.
  groups=$(mktemp -d)
  mount -t cgroup2 none "$groups"
  own=$groups$(sed -n 's/^0:://p' /proc/self/cgroup) new=$groups/rds-$$
  mkdir "$new"
  echo $$ >"$new/cgroup.procs"
  status=0
  RDS_STEP=boot unshare --pid --fork --kill-child --mount --cgroup --uts --ipc --net "$0" "$@" || status=$?
  echo $$ >"$own/cgroup.procs"
  find "$new" -depth -type d -exec rmdir {} \;
  umount "$groups" && rmdir "$groups"
  exit $status
fi

layer=$(mktemp -d) given=$1
shift
mount -t tmpfs tmpfs "$layer"
root=$layer/root
mkdir "$layer/changed" "$layer/work" "$root"
mount -t overlay -o "lowerdir=/,upperdir=$layer/changed,workdir=$layer/work" overlay "$root"
mount -t proc proc "$root/proc"
mount -t sysfs -o ro sysfs "$root/sys"
mount -t cgroup2 none "$root/sys/fs/cgroup"
for folder in dev run tmp; do mount -t tmpfs tmpfs "$root/$folder"; done
mkdir "$root/dev/shm" "$root/given"
for device in null:3 zero:5 full:7 random:8 urandom:9; do mknod -m 666 "$root/dev/${device%:*}" c 1 "${device#*:}"; done
mount --bind "$given" "$root/given"

# Nothing of this machine starts, and services may be started there.
rm -rf "$root"/etc/systemd/system/*.wants "$root/usr/sbin/policy-rc.d"
printf '[Unit]\nDefaultDependencies=no\nWants=given.service\n' >"$root/etc/systemd/system/given.target"
cat >"$root/etc/systemd/system/given.service" <<UNIT
[Unit]
DefaultDependencies=no
SuccessAction=exit-force
FailureAction=exit-force
[Service]
Type=oneshot
ExecStart=$*
StandardOutput=file:/given/told
StandardError=file:/given/errors
UNIT
exec chroot "$root" /usr/bin/env -i container=rds PATH=/usr/sbin:/usr/bin:/sbin:/bin \
  /lib/systemd/systemd --unit=given.target --log-target=null --show-status=0
