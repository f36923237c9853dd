"""Start: what is printed where the program can't start, `check`, and the demo."""
import os
import re
import resource
import signal
import subprocess
import sys
import time

from peers import PATIENCE, Pair, expect, metrics, pmu, same, stream, subscriber, takes


def printed(bench, text, word="run", name="setup"):
    """The status, output and errors of the program with a setup file."""
    file = f"{bench.folder}/{name}.toml"
    if text is not None:
        with open(file, "w") as f:
            f.write(text)
    done = subprocess.run([bench.program, word, "--setup", f"{name}.toml"], cwd=bench.folder, stdin=subprocess.DEVNULL,
                          stdout=subprocess.PIPE, stderr=subprocess.PIPE, timeout=PATIENCE)
    return done.returncode, done.stdout.decode(), done.stderr.decode()


def taken_port(bench, host="127.0.0.1"):
    """A port at which another process listens."""
    return bench.listener(host).getsockname()[1]


def test_mistakes_of_a_setup(bench):
    """Each mistake stands on standard error with its line, and the program ends with 37 and status 1."""
    text = 'tick_ms = 0\n[[pmu]]\nid = 0\nconect = "a"\n[[subscriber]]\nid = 1\nring = 0\n'
    wanted = ("setup.toml:1: tick_ms: is 0; it has to be a whole number from 1 to 1000\n"
              "setup.toml:3: pmu.id: is 0; it has to be a whole number from 1 to 65534\n")
    status, out, errors = printed(bench, text)
    same((status, out, errors[:len(wanted)]), (1, "", wanted))
    expect(re.search(r"(?m)^setup\.toml:4: pmu\.conect: unknown key; ", errors), errors)
    expect(errors.endswith("setup.toml:7: subscriber.ring: is 0; it has to be a whole number from 1 to 1024\npdcgw: 37 BadSetup\n"),
           errors)
    same(printed(bench, text, "check")[2].splitlines()[0], wanted.splitlines()[0], "check:")


@takes(4)
def test_a_setup_of_many_mistakes(bench):
    """Of 100,000 tables with a mistake each `check` and `run` print the first 100 and the count of the others, within 5 seconds."""
    wanted = [f"setup.toml:{2 * at}: pmu.id: is 0; it has to be a whole number from 1 to 65534" for at in range(1, 101)]
    for word in ("check", "run"):
        begun = time.monotonic()
        status, out, errors = printed(bench, "[[pmu]]\nid = 0\n" * 100_000 + subscriber(20), word)
        took, lines = time.monotonic() - begun, errors.splitlines()
        same((status, out, lines), (1, "", [*wanted, "setup.toml: 99900 more mistakes", "pdcgw: 37 BadSetup"]), f"{word}:")
        expect(took < 5, f"{word} took {took:.1f} s")


def test_a_reload_of_many_mistakes(bench):
    """A reload of a file with 4,000 unknown keys is answered within 2 seconds by the first 100 of them and a count; a subscriber, the metrics and the
    control socket are served meanwhile, each within a second."""
    page, pair = bench.port(), Pair(bench)
    pair.text = f'status = "127.0.0.1:{page}"\ncontrol = "{bench.folder}/setup.control"\n' + pair.text
    gateway = pair.run()
    pair.start()
    gateway.write(pair.text + "".join(f"key{at} = 1\n" for at in range(4_000)))
    begun = time.monotonic()
    gateway.say("reload")
    for served in (lambda: pair.first_is_served(3), lambda: metrics(page), lambda: same(gateway.ctl("pmustats 9"), (0, "pmustats taken 0\n", ""))):
        at = time.monotonic()
        served()
        expect(time.monotonic() - at < 1, f"amid a reload it took {time.monotonic() - at:.1f} s")
    answer = gateway.lines(102)
    took = time.monotonic() - begun
    same((answer[100].split(": ")[1], answer[101]), ("3900 more mistakes", "refused 37 BadSetup"), "the end of the answer")
    expect(took < 2, f"the reload took {took:.1f} s")
    pair.second_is_served()
    gateway.quit()


def test_a_sighup_ends_the_program_and_the_unit_starts_it_again(bench):
    """SIGHUP, which the program can't catch, ends it. Started again at once with the same setup, over the socket that was left, it serves; and the unit starts
    it again however it ended."""
    pair = Pair(bench)
    pair.text = f'control = "{bench.folder}/setup.control"\n' + pair.text
    gateway = pair.run()
    first, second = pair.start()
    gateway.process.send_signal(signal.SIGHUP)
    same(gateway.ended(), -signal.SIGHUP, "the status of the program")
    expect(first.is_closed(1) and second.is_closed(1), "connections end with the program")
    gateway = pair.run()
    pair.start()
    pair.first_is_served()
    pair.second_is_served()
    same(gateway.ctl("pmustats 7"), (0, "pmustats taken 1\n", ""))
    gateway.quit()
    with open(os.path.join(os.path.dirname(os.path.abspath(__file__)), "..", "docs", "pdcgw.service")) as f:
        expect("Restart=always\n" in f.readlines(), "docs/pdcgw.service has Restart=always")


def test_a_setup_that_can_not_be_read(bench):
    same(printed(bench, None, name="none"), (1, "", "none.toml: can't be read: there is no such file\npdcgw: 39 ReadFault\n"))


def test_edits_that_are_refused(bench):
    """An edit of the setup that the gateway refuses: whom it concerns, why, and its number."""
    wrong = subscriber(3, ring=4, grants=[8])
    for word in ("run", "check"):
        status, out, errors = printed(bench, pmu(7) + wrong, word)
        same((status, out), (1, ""))
        expect(errors.startswith(f"setup.toml:{line_of(pmu(7), wrong, 'grants')}: subscriber 3: grant of PMU 8/8: refused NoSuchPmu: "), errors)
        expect(errors.endswith("\npdcgw: 23 NoSuchPmu\n"), errors)


def test_what_can_not_be_bound(bench):
    """A port, the page or the control socket that can't be bound: its line in the file, its name, and the reason."""
    rest = pmu(7) + subscriber(1, bench.port(), grants=[7])
    port = taken_port(bench)
    wanted = f"setup.toml:8: subscriber 5: port {port}: address in use\npdcgw: 39 ReadFault\n"
    came = printed(bench, rest + subscriber(5, port, grants=[7]))
    same(came, (1, "", wanted.replace("toml:8", f"toml:{line_of(rest, subscriber(5, port), 'port')}")))
    page = taken_port(bench)
    came = printed(bench, f'status = "127.0.0.1:{page}"\n' + rest)
    same(came, (1, "", f"setup.toml:1: status: 127.0.0.1:{page}: address in use\npdcgw: 39 ReadFault\n"))
    came = printed(bench, 'ingest = 1\ncontrol = "/no/such/folder"\n' + rest)
    same(came, (1, "", "setup.toml:2: control: its folder does not exist\npdcgw: 39 ReadFault\n"))


def line_of(before, text, key):
    lines = (before + text).splitlines()
    return max(at for at, it in enumerate(lines, 1) if it.startswith(f"{key} = "))


def test_check_prints_what_would_run(bench):
    """`check` binds and connects nothing, and prints what would run."""
    text = pmu(7, connect="10.0.0.1:4712", silence=3) + subscriber(4, taken_port(bench), address="127.0.0.1", ring=9, grants=[7])
    status, out, errors = printed(bench, text + stream(44, [7], rate=25), "check")
    same((status, errors), (0, ""))
    expect("source 7: 1 PMU; connect 10.0.0.1:4712; silence 3 s, ahead_ms 0 (never)\n" in out, out)
    expect("subscriber 4: stream 44: 25 frames/s of 7/7\n" in out, out)


def test_names_of_a_gateway(bench):
    """A name of 1 to 64 characters of ASCII is in the log's first line; any other text is refused with its line, as is a name that is no text."""
    for name in ("a", "PDC North, bay 7 ~", "x" * 64):
        pair = Pair(bench, more=f'name = "{name}"\n')
        gateway = pair.run()
        expect(f", name {name}, setup " in gateway.log.lines[0], gateway.log.lines[0])
        gateway.quit()
    for value in ('""', '"' + "x" * 65 + '"', '"N\\u00f6rd"', '"a\\tb"', '"\\u007f"', "7"):
        status, _, errors = printed(bench, f"name = {value}\n" + pmu(7) + subscriber(1), "check")
        same(status, 1)
        expect(re.match(r"setup\.toml:1: name: is .*; it has to be a text of 1 to 64 printable ASCII characters\n", errors), errors)


def test_the_name_of_a_gateway_whose_host_has_none(bench):
    """Without the key `name` it is the host's name; `pdcgw`, where that can be no gateway's name."""
    made = subprocess.run(["unshare", "--uts", "true"], stdin=subprocess.DEVNULL, stdout=subprocess.DEVNULL, stderr=subprocess.DEVNULL)
    if made.returncode != 0:
        print("skipped: only root can give a host another name")
        return
    text = pmu(7) + subscriber(1, bench.port(), grants=[7])
    for host, name in (("bay-7", "bay-7"), ("x" * 64, "x" * 64), ("N\u00f6rd", "pdcgw"), ("a\tb", "pdcgw"), ("", "pdcgw")):
        naming = "import os, socket, sys; socket.sethostname(os.fsencode(sys.argv[1])); os.execv(sys.argv[2], sys.argv[2:])"
        gateway = bench.gateway(text, words=["unshare", "--uts", sys.executable, "-c", naming, host])
        gateway.line("INFO the gateway starts: ")
        expect(f", name {name}, setup " in gateway.log.lines[0], f"{host!r}: {gateway.log.lines[0]}")
        gateway.quit()


# A setup with two warnings: no `connect`, and a `bytes` below a frame.
def warned(bench):
    return pmu(7) + subscriber(1, bench.port(), bytes=21, grants=[7]) + stream(101, [7])


def test_warnings_are_logged_at_the_start(bench):
    """What `check` warns of is in the log once, behind its first line; with `log = "error"` it is not, and without warnings there is none."""
    text = warned(bench)
    _, _, errors = printed(bench, text, "check")
    same(len(errors.splitlines()), 2, errors)
    gateway = bench.gateway(text).serves(1)
    wanted = [f"{bench.folder}/{it}" for it in errors.splitlines()]
    same([it.split(" ", 1)[1] for it in gateway.log.lines[1:3]], [f"WARN {it}" for it in wanted], "the log's second and third lines")
    same(gateway.logged(".* warning: .*"), 2)
    gateway.quit()
    gateway = bench.gateway('log = "error"\n' + text)
    same(gateway.status()["subscriber 1"].split()[3], "waiting")
    same(list(gateway.log.lines), [])
    gateway.quit()


def test_warnings_after_a_reload(bench):
    """After a `reload` of a file with warnings the log says that there are some; after one without it does not."""
    pair = Pair(bench)
    gateway = pair.run()
    gateway.reload(pair.text + subscriber(3, ring=1) + stream(5, [7]), "reloaded: 2 edits, 0 changes of connections and ports")
    gateway.logs("WARN the setup has warnings, which `pdcgw check` lists")
    gateway.reload(pair.text, "reloaded: 1 edit, 0 changes of connections and ports")
    gateway.logs("INFO `reload`: the setup was read, and its changes are done", 2)
    time.sleep(0.3)
    same(gateway.logged(".*warning.*"), 1)
    gateway.quit()


def test_the_level_of_the_log_at_the_start(bench):
    """With `log = "warn"` lines of INFO are left out, and those of WARN are not."""
    pair = Pair(bench, more='log = "warn"\n')
    gateway = bench.gateway(pair.text)
    pair.seven.come()
    pair.nine.come()
    pair.nine.link.send(b"no frame at all")
    gateway.line("WARN source 9: connection lost")
    time.sleep(0.3)
    same([it for it in gateway.log.lines if " WARN " not in it], [])
    gateway.quit()


def test_words_of_the_command_line(bench):
    """Unknown words have status 2; `--version` and `--help` have status 0."""
    def run(*words):
        return subprocess.run([bench.program, *words], stdin=subprocess.DEVNULL, stdout=subprocess.PIPE, stderr=subprocess.PIPE,
                              timeout=PATIENCE)

    for words in (["walk"], ["run"], ["run", "--setup"], ["run", "--setup", "a", "b"], ["demo", "--seconds", "x"]):
        done = run(*words)
        same((done.returncode, done.stdout), (2, b""), f"{words}")
        expect(done.stderr, f"{words}: nothing is printed")
    same(run("--version").returncode, 0)
    expect(b"control" in run("run", "--help").stdout, "the help of `run` has the keys")


@takes(11)
def test_the_demo_compares_each_frame(bench):
    """Ten seconds of the demo: each frame of both streams came byte for byte as its sources sent it, 30 a second of two PMUs and of one."""
    done = subprocess.run([bench.program, "demo", "--seconds", "10"], stdin=subprocess.DEVNULL, stdout=subprocess.PIPE,
                          stderr=subprocess.PIPE, timeout=55)
    out, errors = done.stdout.decode(), done.stderr.decode()
    same(done.returncode, 0, f"{out[-500:]}{errors[-500:]}\nstatus of the demo")
    found = re.search(r"every frame came, byte for byte as the sources sent it: (\d+) of the first stream, (\d+) of the second\n$", out)
    expect(found, f"the verdict is another: {out[-300:]}")
    first, second = map(int, found.groups())
    # Both have a frame for each slot of ten seconds, 30 a second, but for those that a busy machine leaves out in both.
    expect(first == second and 150 <= first <= 301, f"{first} and {second} frames in ten seconds")
    said = re.search(r"(?m)^(\d+) frames, (\d+) missing, 0 fillers, 0 troubles ", out)
    expect(said and int(said[1]) == first, f"what `watch` counts: {out[-300:]}")


def test_a_demo_that_ends_before_its_time(bench):
    """Where standard output is full, and where memory runs out, the demo says so, and its status is 1."""
    def memory_is_short():
        resource.setrlimit(resource.RLIMIT_AS, (20 << 20, 20 << 20))

    for limit, told in ((None, "standard output can't be written"), (memory_is_short, "1 NoMemory")):
        with open("/dev/full", "w") as full:
            done = subprocess.run([bench.program, "demo", "--seconds", "1"], stdin=subprocess.DEVNULL, stdout=full, stderr=subprocess.PIPE,
                                  timeout=PATIENCE, preexec_fn=limit)
        same((done.returncode, done.stderr.decode()), (1, f"pdcgw: {told}\n"))
