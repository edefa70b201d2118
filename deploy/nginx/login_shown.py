"""What a real browser shows and can be made to do, and what the commands of the README print.
"""
import os
import re
import shutil
import subprocess
import threading
from http.server import BaseHTTPRequestHandler, ThreadingHTTPServer

from login_asks import NOT_OWN, entry, places
from login_peer import ANN, FOLDER, SITE, Browser, Client, Proxy, password_files, text_of, write
from tests.http_cases import Cases
from tests.http_peer import HERE, Server, free_port


# A page of another site. Its form spells an act of ann's in plain text: {{"by":"ann", .. ,"x":"="}}.
PAGE = """<body><form method=post enctype=text/plain action={site}/acts>
<input name='{{"by":"ann","act":"enter 5 a--c no 8 1 - - ok","moment":0,"number":9,"x":"' value='"}}'></form></body>"""
FETCH = """fetch("{site}/acts", {{method: "POST", credentials: "include", mode: "{mode}", headers: {{"Content-Type": "{kind}"}}, body: '{body}'}})
    .then((it) => it.text().then((text) => it.status + " " + text), (it) => "none: " + it)"""
SCRIPT = """new Promise((told) => {{ const it = document.createElement("script"); it.src = "{site}/places"; it.onload = () => told("taken");
    it.onerror = () => told("not taken"); document.body.append(it); }})"""


def browsers(cases: Cases, folder: str) -> None:
    """What a browser that is logged in can be made to do by a page of the site, and by one of another."""
    if not shutil.which("chromium"):
        print("not tried: a browser, since chromium is not installed")
        return
    password_files(folder)
    with Server(cases.program, folder, "desk.db", None) as server, Proxy(folder, "tcdesk-password", server.port) as proxy, \
            other_site(PAGE.format(site=proxy.origin)) as evil, Browser(folder, SITE, "evil.example.net") as browser:
        browser.go(f"https://{ANN}@{SITE}:{proxy.port}/places", f"{proxy.origin}/places")
        cases.tell("a browser that is logged in", places(0).text, browser.go(f"{proxy.origin}/places"))
        for name, kind, by, want in (("its own name", "application/json", "ann", '200 {"lines":["ok request 1 5/0"'),
                                     ("another's name", "application/json", "bob", f"403 {NOT_OWN}"),
                                     ("plain text", "text/plain", "ann", '403 {"proxy":"refused: the Content-Type')):
            script = FETCH.format(site="", mode="same-origin", kind=kind, body=entry(1 if want[0] == "2" else 2, by))
            cases.tell(f"a page of the site, with {name}", want, browser.run(script)[:len(want)])
        page = f"http://evil.example.net:{evil.server_address[1]}/"
        browser.go(page)
        for mode, kind in (("no-cors", "text/plain"), ("cors", "application/json")):
            came = browser.run(FETCH.format(site=proxy.origin, mode=mode, kind=kind, body=entry(3)))
            cases.tell(f"a page of another site asks, {mode}", "none: TypeError", came[:15])
        cases.tell("a page of another site reads a question as a script", "not taken", browser.run(SCRIPT.format(site=proxy.origin)))
        before = proxy.said().count("refused to the login")
        browser.run("document.forms[0].submit()")
        cases.tell("a form of another site", '{"proxy":"refused: the Content-Type is not application/json"}', browser.shows(f"{proxy.origin}/acts"))
        cases.tell("the login was sent along with it", before + 1, proxy.said().count('refused to the login "ann"'))
        cases.tell("what was done", places(1), Client(proxy, ANN).get())


def other_site(page: str) -> ThreadingHTTPServer:
    """A server of this page alone."""
    class Page(BaseHTTPRequestHandler):
        """Answers with it."""

        def do_GET(self) -> None:
            """The page, whatever is asked."""
            self.send_response(200)
            self.send_header("Content-Type", "text/html")
            self.end_headers()
            self.wfile.write(page.encode())

        def log_message(self, format: str, *args: object) -> None:
            """Says nothing."""
    server = ThreadingHTTPServer((HERE, free_port()), Page)
    threading.Thread(target=server.serve_forever, daemon=True).start()
    return server


# What stands in for root's machine: its files of nginx are copies, and its net has nobody else. The password is typed, and the desk is served.
MACHINE = """
mount --bind nginx /etc/nginx && mount --bind ssl /etc/ssl && mount --bind hosts /etc/hosts && mount --bind log /var/log/nginx || exit
mount --bind run /run && mount --bind state /var/lib/nginx && ip link set lo up || exit
cd work
apt-get() {{ :; }}
htpasswd() {{ if [ "${{!#}}" = ann ]; then echo secret; else echo other; fi | command htpasswd -i "$@" 2>/dev/null; }}
systemctl() {{
    [ -s /run/nginx.pid ] || {{ nginx; return; }}
    old=$(pgrep -P "$(cat /run/nginx.pid)")
    nginx -s reload 2>/dev/null
    for it in $old; do while kill -0 "$it" 2>/dev/null; do sleep 0.05; done; done
}}
'{program}' serve served.db 8080 2>served.err >served.out &
desk=$!
until grep -qs listening served.err; do sleep 0.05; done
exec 2>&1
{blocks}
kill "$desk" "$(cat /run/nginx.pid)"
"""
MARK = "---- end of a block ----"


def readme(cases: Cases, folder: str) -> None:
    """The commands of the README print what it shows, on a machine of their own."""
    for name in ("unshare", "ip", "pgrep", "htpasswd", "curl"):
        if not shutil.which(name):
            print(f"not tried: the commands of the README, since {name} is not installed")
            return
    if subprocess.run(["unshare", "-mn", "true"], capture_output=True, check=False).returncode:
        print("not tried: the commands of the README, since this system lets nobody have a root of the own")
        return
    parts = re.findall(r"^```([a-z]*)\n(.*?)^```$", text_of(f"{FOLDER}/README.md"), re.DOTALL | re.MULTILINE)
    blocks = [(text, "" if after[0] else after[1]) for (kind, text), after in zip(parts, [*parts[1:], ("sh", "")]) if kind == "sh"]
    shutil.copytree("/etc/nginx", f"{folder}/nginx", symlinks=True)
    shutil.copytree("/etc/ssl", f"{folder}/ssl", symlinks=True)
    for name in ("log", "run", "state", "work", "work/deploy"):
        os.mkdir(f"{folder}/{name}")
    os.symlink(FOLDER, f"{folder}/work/deploy/nginx")
    write(f"{folder}/hosts", f"127.0.0.1 localhost {SITE}\n")
    write(f"{folder}/machine.sh", MACHINE.format(program=cases.program, blocks="".join(f"{text}\necho '{MARK}'\n" for text, _ in blocks)))
    ran = subprocess.run(["unshare", "-mn", "bash", "machine.sh"], cwd=folder, stdin=subprocess.DEVNULL, capture_output=True, text=True, timeout=300,
                         check=False)
    came = ran.stdout.split(f"{MARK}\n")
    cases.tell("the commands of the README, to their end", (len(blocks) + 1, ""), (len(came), ran.stderr))
    for (text, shown), printed in zip(blocks, came):
        cases.tell(f"what is printed by\n{text}", shown, printed)
