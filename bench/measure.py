"""Prints how long matching takes, list by list: run by `bench/run`, with the folder of the built peers as argument."""
import subprocess
import sys
import time

import lists

REHEARSE = "crates/rehearse/out/rehearse"


def seconds(script):
    start = time.perf_counter()
    out = subprocess.run([REHEARSE], input=script, capture_output=True, check=True).stdout
    return time.perf_counter() - start, out


def per_match(groups, name, text, count, times):
    """Verdict and nanoseconds of opening a list and matching a name against it, from their texts: the least of many
    rounds, as of the peers, so that other work on the machine counts little."""
    rounds = []
    for _ in range(times):
        many, out = seconds(lists.script(groups, name, text, count))
        none, _ = seconds(lists.script(groups, name, text, 0))
        rounds.append((many - none) / count * 1e9)
    return out.split(b"\n")[-2].decode(), min(rounds)


def peer(command):
    text = "\n".join([lists.NAME] + [lists.flat(text) for text in lists.LISTS]) + "\n"
    out = subprocess.run([command], input=text, capture_output=True, check=True, text=True).stdout
    return [line.split() for line in out.splitlines()]


def main():
    folder = sys.argv[1]
    re2 = peer(folder + "/re2bench")
    regex = peer(folder + "/regexbench")
    print("list  verdict  rehearse ns  RE2 ns  regex ns  RE2 / rehearse")
    for i, text in enumerate(lists.LISTS):
        verdict, own = per_match(lists.GROUPS, lists.NAME, text, 1000, 81)
        if [re2[i][0], regex[i][0]] != ["1" if verdict == "yes" else "0"] * 2:
            raise SystemExit("the peers do not agree on list %d" % (i + 1))
        print("%4d  %7s  %11.0f  %6s  %8s  %14.1f" % (i + 1, verdict, own, re2[i][1], regex[i][1], float(re2[i][1]) / own))
    print()
    print("slow lists: 33 full texts of a piece, the longest name")
    print("piece  verdict  rehearse ns")
    for piece in lists.SLOW:
        groups, text = lists.chained(piece)
        verdict, own = per_match(groups, lists.LONGEST_NAME, text, 20, 9)
        print("%s  %s  %.0f" % (piece if len(piece) < 60 else piece[:20] + ".." + piece[-4:], verdict, own))


main()
