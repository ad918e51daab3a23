#!/usr/bin/env python3
"""Writes crates/linenplane/stdin: scenarios that meet each rule of the outside from both sides.

The long, regular parts (64 nodes, 128 watches, chains of links) are made here; the rest is written out."""
import sys

out = []


def say(*lines):
    out.extend(lines)


def scenario(name, *lines):
    say("", f"scenario {name}", *lines)


say("# Each rule of paths, texts, backends, scanners and filterers, from both sides.")

scenario(
    "texts",
    "catalogue", "dir /a", "dir /a/b", "dir /x",
    "look /a//b/./c/.. nofollow",
    "look a/b nofollow",
    "look ../x nofollow",
    "look % nofollow",
    "look / nofollow",
    "look /a/../../.. nofollow",
    "look /a/bc nofollow",
    "look /a%00b nofollow",
    "look " + "/" * 64 + " nofollow",
    "look " + "/" * 65 + " nofollow",
    "look %00" + "a" * 64 + " nofollow",
    "look /1/2/3/4/5/6/7/8 nofollow",
    "look /1/2/3/4/5/6/7/8/9 nofollow",
    "look /1/2/3/4/5/6/7/8/9/../.. nofollow",
    "look /" + "n" * 63 + " nofollow",
    "look " + "n" * 63 + " nofollow",
    "look " + "n" * 64 + " nofollow",
)
scenario(
    "names-as-bytes",
    "catalogue", "dir /%C3%A9", "file /%C3%A9/a%20b", "dir /~", "dir /%7F",
    "look /%C3%A9 nofollow", "items /%C3%A9", "items /", "look /%C3%A9/a%20b follow",
)
scenario(
    "catalogue",
    "dir /a", "file /a/f", "dir /a/b", "link /a/l /a/b", "link /a/dangling /nowhere", "link /a/file /a/f",
    "dir /lone/child",
    "look /a nofollow", "look /a/f nofollow", "look /a/l nofollow", "look /a/l follow",
    "look /a/dangling nofollow", "look /a/dangling follow", "look /a/file follow", "look /a/file nofollow",
    "look /a/f/below nofollow", "look /a/file/below follow", "look /missing follow",
    "look /lone/child follow", "look /lone nofollow",
    "look /a/l/below nofollow", "look /a/dangling/below follow",
    "items /a", "items /a/l", "items /a/f", "items /a/file", "items /a/dangling", "items /missing", "items /lone",
    "items /a/b",
    "dir /lone", "items /lone", "look /lone/child follow",
    "file /a/b", "look /a/l follow", "look /a/b nofollow",
    "strike /a", "look /a nofollow", "look /lone nofollow", "items /",
    "strike /", "look / nofollow", "items /",
)
scenario("order-of-a-listing", "dir /b", "dir /a", "file /ab", "dir /a/z", "dir /a.b", "link /B /a", "items /", "items /a")
chain = ["dir /end"] + [f"link /l{i} " + ("/end" if i == 1 else f"/l{i - 1}") for i in range(1, 10)]
scenario(
    "eight-links-and-nine", *chain,
    "look /l8 follow", "look /l9 follow", "look /l9 nofollow", "look /l8/x follow", "look /l9/x nofollow",
    "items /l8", "items /l9", "dir /end/x", "look /l8/x nofollow", "look /l9/x nofollow",
)
scenario("links-in-a-ring", "link /p /q", "link /q /p", "look /p follow", "look /p nofollow", "items /q", "look /p/x follow")
scenario("link-to-itself", "link /s /s/s", "look /s follow", "look /s/a nofollow")
scenario("link-to-the-root", "dir /a", "link /a/up /", "look /a/up follow", "look /a/up/a nofollow", "items /a/up/a/up", "link / /a", "look / nofollow")
scenario(
    "links-beyond-the-limits",
    "dir /1", "dir /1/2", "dir /1/2/3", "dir /1/2/3/4", "dir /1/2/3/4/5", "dir /1/2/3/4/5/6", "dir /1/2/3/4/5/6/7",
    "link /deep /1/2/3/4/5/6/7", "dir /1/2/3/4/5/6/7/8",
    "look /deep/8 nofollow", "look /deep/8/9 nofollow", "look /deep/8/9 follow", "link /there /deep/8/9",
    "look /there follow", "items /there", "items /deep",
    "dir /" + "w" * 40, "link /wide /" + "w" * 40, "dir /" + "w" * 40 + "/" + "v" * 22,
    "look /wide/" + "v" * 22 + " nofollow", "look /wide/" + "v" * 23 + " nofollow",
)
scenario("sixty-four-nodes", *[f"dir /n{i:02}" for i in range(1, 64)], "look /n63 nofollow", "file /n63", "look /n63 nofollow",
         "strike /n01", "dir /other", "look /other nofollow", "dir /one-more", "look / nofollow")
scenario(
    "sheet",
    "sheet", "look / nofollow", "items /",
    "class /a follow directory /c", "class /a nofollow symlink", "class /b nofollow other", "class /c follow number:13",
    "class /d follow not-found", "class /b nofollow number:4294967295",
    "look /a follow", "look /a nofollow", "look /b nofollow", "look /b follow", "look /c follow", "look /d follow",
    "list /a =z =a !number:5 =z !not-found", "items /a", "list /e", "items /e", "unlist /e number:13", "items /e",
    "list /e =back", "items /e", "unlist /f not-found", "items /f",
    "class /a/x follow other", "list /a/x =q", "class /ab follow other",
    "strike /a", "look /a follow", "look /a nofollow", "items /a", "look /a/x follow", "items /a/x", "look /ab follow", "items /e",
)
scenario("long-listing", "sheet", "list /many " + " ".join(f"=i{i:02}" for i in range(65)), "items /many")
scenario("long-names", "sheet", "list /long =" + "n" * 255, "items /long")
scenario("full-classes", "sheet", *[f"class /c{i:03} follow other" for i in range(512)], "class /c000 follow number:1", "look /c000 follow",
         "class /c512 nofollow other", "look /c512 nofollow", "class /c512 follow other", "look /c512 follow")
scenario("full-listings", "sheet", *[f"unlist /l{i:03} not-found" for i in range(256)], "list /l000 =a", "items /l000",
         "strike /l001", "list /other =b", "items /other", "unlist /one-more not-found", "items /one-more")
scenario("full-items", "sheet", "list /many " + " ".join(["=n"] * 2047) + " =last", "list /other", "items /other", "list /many =one", "items /many",
         "list /other =two =three", "items /other")
scenario("one-item-too-many", "sheet", "list /many " + " ".join(["=n"] * 2048) + " =last", "items /many")
scenario(
    "board",
    "board 2", "fill", "watch /a", "fill", "watch /a", "watch /b", "watch /c", "watch /a", "fill",
    "unwatch /c", "unwatch /a", "unwatch /a", "fill", "watch /c", "fill", "watch /" + "n" * 64, "unwatch %00",
)
scenario("one-slot", "board 1", "unwatch /", "watch /", "watch /x", "unwatch /", "watch /x", "fill")
scenario("three-slots", "board 3", "watch /a", "fill", "watch /b", "fill", "watch /c", "fill")
scenario("sixty-four-slots", "board 64", *[f"watch /s{i:02}" for i in range(1, 65)], "fill", "watch /one-more", "watch /s64", "unwatch /s01", "fill", "watch /one-more")
scenario(
    "roll",
    "roll", "answer done", "answer max-files", "answer path-not-found /p", "answer io:28 /q", "answer watch-not-found",
    "answer other", "answer io:4294967295",
    "watch /a", "watch /b", "watch /c", "unwatch /a", "unwatch /a", "unwatch /b", "watch /d", "watch /e", "unwatch /f",
    "answer other /z", "unwatch /e", "unwatch /e",
)
scenario("a-full-book", "roll", *[f"watch /w{i:03}" for i in range(128)], "answer other", "watch /one-more", "watch /w000", "watch /one-more",
         "answer watch-not-found", "unwatch /w001", "watch /one-more", "watch /two-more")
scenario("full-roll", "roll", *["answer other"] * 1024, "watch /a", "answer done", "watch /b", "answer io:5", "answer io:6", "watch /c")
names = [f"n{i}" for i in range(1, 17)]
scenario("sixteen-names", *[f"deny {n}" for n in names], "verdict /n16", "verdict /n1/x", "verdict /x/n1", "verdict /", "verdict /n17",
         "deny n16", "verdict /n16", "filter", "verdict /n16")
scenario("balks", "balk a 7", "verdict /a", "deny a", "verdict /a", "balk a 65535", "verdict /b/a", "verdict /a/b", "verdict " + "a" * 65)
scenario("faults", "faults 72", "faults 0")

# What is wrong is told with its line and word, and the rest of the scenario is passed over.
wrong = [
    "nonsense", "look", "look /a", "look /a maybe", "look /a follow extra", "look /%zz follow", "look /%4 follow", "look /%c3 follow",
    " look /a follow", "look  /a follow", "look /a follow ", "board", "board 0", "board 65", "board 1001", "board x", "board -1", "board 3 4",
    "fill", "watch /a", "unwatch /a", "answer done", "catalogue x", "sheet x", "dir", "file /a%00", "dir " + "/d" * 9, "link /a", "link /a b",
    "link /a %", "class /a follow other", "list /a =b", "unlist /a not-found", "strike", "filter x", "deny", "deny a/b", "deny .", "deny ..",
    "deny %", "deny " + "n" * 256, "balk a", "balk a 65536", "balk a b", "faults", "faults 65537", "verdict", "open inotify follow /",
    "reconcile +/a", "step", "run 5", "created /a", "removed /a", "doubtful /a", "renamed /a /b", "public /a", "close", "show",
    "items", "\xe9", "scenario", "scenario two words",
]
for i, line in enumerate(wrong):
    scenario(f"wrong-{i + 1}", line, "look / nofollow")
scenario("wrong-second-backend", "board 1", "roll", "fill")
scenario("wrong-second-board", "roll", "board 1", "watch /a")
scenario("wrong-no-roll", "board 1", "answer done", "fill")
scenario("wrong-no-board", "roll", "fill", "watch /a")
scenario("wrong-done-path", "roll", "answer done /a", "watch /a")
scenario("wrong-answer", "roll", "answer maybe", "watch /a")
scenario("wrong-io", "roll", "answer io:4294967296", "watch /a")
scenario("wrong-io-word", "roll", "answer io:", "watch /a")
scenario("wrong-no-catalogue", "sheet", "dir /a", "look /a follow")
scenario("wrong-followed-link", "sheet", "class /a follow symlink", "look /a follow")
scenario("wrong-class", "sheet", "class /a follow maybe", "look /a follow")
scenario("wrong-cause", "sheet", "class /a follow number:x", "look /a follow")
scenario("wrong-item", "sheet", "list /a b", "look /a follow")
scenario("wrong-item-name", "sheet", "list /a =", "look /a follow")
scenario("wrong-item-cause", "sheet", "list /a !", "look /a follow")
scenario("wrong-65th-node", *[f"dir /n{i:02}" for i in range(1, 64)], "dir /one-more", "look / nofollow")
scenario("wrong-17th-name", *[f"deny {n}" for n in names], "deny n17", "verdict /n17")
scenario("wrong-17th-balk", *[f"balk {n} 1" for n in names], "balk n17 1", "verdict /n17")
scenario("and-on", "look / nofollow")

text = "\n".join(out) + "\n"
sys.stdout.buffer.write(text.encode("latin-1"))
