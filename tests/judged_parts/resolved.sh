#!/bin/sh
# Runs systemd-resolved without a bus, out of a folder that its packages are unpacked in, and in a mount namespace of its
# own: no file of the machine changes, and least of all resolv.conf.
#
#     resolved.sh FOLDER PORT UPSTREAM_PORT
root=$1 port=$2 upstream=$3
exec unshare -m --propagation private /bin/sh -c '
root=$1 port=$2 upstream=$3
mount -t tmpfs none /mnt || exit 1
mkdir /mnt/etc /mnt/etc/systemd /mnt/run || exit 1
cp /etc/passwd /etc/group /etc/nsswitch.conf /mnt/etc/ 2>/dev/null
echo "systemd-resolve:x:990:990::/:/usr/sbin/nologin" >>/mnt/etc/passwd
echo "systemd-resolve:x:990:" >>/mnt/etc/group
cat >/mnt/etc/systemd/resolved.conf <<EOF
[Resolve]
DNS=127.0.0.1:$upstream
FallbackDNS=
Domains=~.
DNSSEC=no
DNSOverTLS=no
MulticastDNS=no
LLMNR=no
DNSStubListener=no
DNSStubListenerExtra=udp:127.0.0.1:$port
ReadEtcHosts=no
CacheFromLocalhost=yes
EOF
mount --bind /mnt/etc /etc || exit 1
mount -t tmpfs none /run || exit 1
mkdir -p /run/systemd/resolve && chown 990:990 /run/systemd/resolve
export LD_LIBRARY_PATH=$root/usr/lib/x86_64-linux-gnu/systemd
exec $root/lib/systemd/systemd-resolved
' sh "$root" "$port" "$upstream"
