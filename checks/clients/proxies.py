"""proxies.py: proxies in front of the server, each with the least configuration, on a free port and in a folder of its own."""
import os
import socket
import subprocess
import tempfile
import time

from trying import SECONDS, asked, kept, start, stop

# Of a proxy: its configuration, and the command that starts it in the foreground.
NGINX = """daemon off; user root; worker_processes 1; pid DIR/pid; error_log DIR/errors;
events { worker_connections 64; }
http {
    access_log off; client_body_temp_path DIR/body; proxy_temp_path DIR/proxy; fastcgi_temp_path DIR/fastcgi;
    uwsgi_temp_path DIR/uwsgi; scgi_temp_path DIR/scgi;
    upstream behind { server 127.0.0.1:SERVER; KEPT }
    server { listen 127.0.0.1:PORT; location / { proxy_pass http://behind; VERSION } }
}
"""
NGINX_COMMAND = ["nginx", "-p", "DIR", "-e", "DIR/errors", "-c", "DIR/conf"]
PROXIES = {
    "nginx": (NGINX.replace("KEPT", "").replace("VERSION", ""), NGINX_COMMAND),
    "nginx, kept": (NGINX.replace("KEPT", "keepalive 4;")
                    .replace("VERSION", 'proxy_http_version 1.1; proxy_set_header Connection "";'), NGINX_COMMAND),
    "haproxy": ("""defaults
    mode http
    timeout connect 2s
    timeout client 10s
    timeout server 5s
listen all
    bind 127.0.0.1:PORT
    server behind 127.0.0.1:SERVER
""", ["haproxy", "-db", "-f", "DIR/conf"]),
    "apache2": ("""ServerRoot DIR
PidFile DIR/pid
ErrorLog DIR/errors
DefaultRuntimeDir DIR
ServerName h
User www-data
Group www-data
Listen 127.0.0.1:PORT
LoadModule mpm_event_module MODULES/mod_mpm_event.so
LoadModule authz_core_module MODULES/mod_authz_core.so
LoadModule proxy_module MODULES/mod_proxy.so
LoadModule proxy_http_module MODULES/mod_proxy_http.so
ProxyPass / http://127.0.0.1:SERVER/ timeout=5
""".replace("MODULES", "/usr/lib/apache2/modules"), ["apache2", "-DFOREGROUND", "-f", "DIR/conf"]),
    "lighttpd": ("""server.document-root = "DIR"
server.bind = "127.0.0.1"
server.port = PORT
server.errorlog = "DIR/errors"
server.modules = ("mod_proxy")
proxy.server = ("" => (("host" => "127.0.0.1", "port" => SERVER)))
""", ["lighttpd", "-D", "-f", "DIR/conf"]),
    "varnish": ("""vcl 4.1;
backend behind { .host = "127.0.0.1"; .port = "SERVER"; .first_byte_timeout = 5s; }
sub vcl_recv { return (pass); }
""", ["varnishd", "-F", "-j", "none", "-n", "DIR/work", "-s", "malloc,8m", "-a", "127.0.0.1:PORT", "-f", "DIR/conf"]),
}


def free_port():
    with socket.create_server(("127.0.0.1", 0)) as found:
        return found.getsockname()[1]


def is_up(port, process):
    """Whether the proxy takes connections within five seconds."""
    until = time.monotonic() + 5
    while time.monotonic() < until and process.poll() is None:
        try:
            socket.create_connection(("127.0.0.1", port), timeout=1).close()
            return True
        except OSError:
            time.sleep(0.05)
    return False


def statuses(port):
    """What is met by a GET, a POST, a large POST, two requests on one connection, and a cookie in UTF-8."""
    get, post, large = ("GET", None, {}), ("POST", b"hello", {}), ("POST", b"x" * 100000, {})
    cookie = ("GET", None, {"Cookie": b"a=\xc3\xa9"})
    until = time.monotonic() + SECONDS
    cells = []
    for requests in ([get], [post], [large], [get, post], [cookie]):
        with kept(port, max(0.1, until - time.monotonic())) as client:
            cells += [asked(client, *request) for request in requests]
    return " ".join(cells)


def proxy(name):
    """A try of what a client meets behind this proxy."""
    configuration, command = PROXIES[name]

    def run(port):
        with tempfile.TemporaryDirectory(prefix="proxy-") as folder:
            own = free_port()

            def filled(text):
                return text.replace("DIR", folder).replace("PORT", str(own)).replace("SERVER", str(port))
            with open(os.path.join(folder, "conf"), "w") as out:
                out.write(filled(configuration))
            process = start([filled(w) for w in command], stdin=subprocess.DEVNULL, stdout=subprocess.DEVNULL,
                            stderr=subprocess.DEVNULL)
            try:
                return statuses(own) if is_up(own, process) else "doesn't start"
            finally:
                stop(process)
    return run
