# The program, resetctl and the client library in a container.
#
#   make deb                                 (or make trial, and make deb PROGRAM=bin/resetd-trial)
#   podman build -t resetd .
#   podman run --rm -v resetd-store:/var/lib/resetd -v resetd-log:/var/log/resetd resetd init
#   podman run -d --name resetd --stop-timeout 20 -v resetd-store:/var/lib/resetd -v resetd-log:/var/log/resetd resetd
#   podman run -d --name resetd-proxy --network container:resetd -v resetd-proxy:/run/resetd-proxy -v resetd-log:/var/log/resetd resetd proxy
#   podman exec resetd-proxy resetctl show
#
# As the unit has it: the store is one volume and the file of signals another, which the services read; `stop` sends
# SIGTERM, at which the server ends in order; nothing else is written to (so --read-only may be given). The port has no
# authentication and is at 127.0.0.1: only what shares the container's network reaches it, as the proxy does. Services
# mount the folder of the proxy's socket, and run as its user (or as root).
FROM docker.io/library/debian:bookworm-slim
COPY bin/resetd_*.deb /tmp/
RUN apt-get update \
 && apt-get install -y --no-install-recommends /tmp/resetd_*.deb \
 && rm -rf /tmp/resetd_*.deb /var/lib/apt/lists/* \
 && install -d -o resetd -g resetd /run/resetd-proxy \
 && chown resetd:resetd /var/log/resetd
USER resetd
VOLUME ["/var/lib/resetd", "/var/log/resetd", "/run/resetd-proxy"]
STOPSIGNAL SIGTERM
HEALTHCHECK --interval=30s --timeout=10s CMD ["resetctl", "--state", "/tmp", "health"]
ENTRYPOINT ["/usr/share/resetd/tools/container"]
CMD ["serve"]
