"""Tests of `ccp scenario`."""
import json
import os
import shutil

from support import EXAMPLES, TRACES, ccp, command

# without it the senders are all agents that there are
TWO_AGENTS = ("--senders", "reno,cubic")


def made(*words):
    text, errors, status = command("scenario", *words)
    assert status == 0, "status %d: %s" % (status, errors)
    return json.loads(text)


def refused(status, part, *words):
    """Expects a refusal in one line, with nothing printed."""
    printed, errors, ended = command("scenario", *words)
    assert (
        ended == status
        and not printed
        and part in errors
        and errors.count("\n") == 1
        and errors.startswith("ccp scenario: ")
    ), "%s: %d %s" % (words, ended, errors)


def names_of(scenario):
    return [case["name"] for case in scenario["cases"]]


def trace_file(folder, name, times):
    path = os.path.join(folder, name)
    with open(path, "w", encoding="ascii") as file:
        file.writelines("%d\n" % time for time in times)
    return path


# ---- the grid


def test_a_grid():
    """Each case of the grid is there, and `campaign` takes the scenario."""
    scenario = made("--senders", "reno,cubic", "--queue", "20,200", "--delay-ms", "10,40.5", "--acks", 50, *TRACES)
    cases = scenario["cases"]
    assert len(cases) == 24 and len(set(names_of(scenario))) == 24, "%d cases" % len(cases)
    assert {case["delay_us"] for case in cases} == {10000, 40500}, "delays"
    table, errors, status = ccp("campaign", given=json.dumps(scenario))
    assert status == 0 and table.count("\n") == 26, "campaign: %s" % errors


def test_senders_where_none_is_named():
    scenario = made("--acks", 50, TRACES[0])
    assert [case["sender"] for case in scenario["cases"]] == ["linux-reno", "linux-cubic"] == list(scenario["programs"])


def test_ranges():
    cases = made(
        "--senders",
        "reno",
        "--queue",
        "10..30:10,25, 30",
        "--delay-ms",
        "10..12.5:1.25",
        "--mark",
        "none,5..9:2",
        TRACES[0],
    )["cases"]
    assert list(dict.fromkeys(case["queue"] for case in cases)) == [10, 20, 30, 25], "queues"
    assert list(dict.fromkeys(case["delay_us"] for case in cases)) == [10000, 11250, 12500], "delays"
    assert list(dict.fromkeys(case.get("mark") for case in cases)) == [None, 5, 7, 9], "marks"
    assert cases[-1]["name"] == "fixed-reno-q25-d12.5-m9", cases[-1]["name"]


def test_programs_and_labels(tmp_path):
    path = os.path.join(tmp_path, "mine.portus")
    shutil.copyfile(EXAMPLES / "reno_ss.portus", path)
    scenario = made(
        "--portus",
        "mine=" + path,
        "--senders",
        "reno:mine,cubic,reno::mine,new=reno:mine:mine",
        "--acks",
        200,
        TRACES[0],
    )
    cases = scenario["cases"]
    assert [(case["agent"], case.get("ss"), case.get("ca"), case["sender"]) for case in cases] == [
        ("reno", "mine", "mine", "reno.mine"),
        ("cubic", None, None, "cubic"),
        ("reno", None, "mine", "reno.mine"),
        ("reno", "mine", "mine", "new"),
    ], str(cases)
    assert names_of(scenario) == ["fixed-reno.mine", "fixed-cubic", "fixed-reno.mine-2", "fixed-new"], str(
        names_of(scenario)
    )
    assert ccp("campaign", given=json.dumps(scenario))[2] == 0, "campaign refuses it"


# ---- losses


def test_losses_by_chance_and_seeds():
    scenario = made(
        "--senders",
        "reno",
        "--losses",
        "none,3+9,rate:0.05,rate:0.1:7,gilbert:0.02:0.25",
        "--seeds",
        "1..3",
        "--acks",
        2000,
        TRACES[0],
    )
    cases = scenario["cases"]
    assert names_of(scenario) == [
        "fixed-reno-" + end for end in ("l0", "l1", "l2-s1", "l2-s2", "l2-s3", "l3", "l4-s1", "l4-s2", "l4-s3")
    ], str(names_of(scenario))
    assert [case.get("seed") for case in cases] == [None, None, 1, 2, 3, 7, 1, 2, 3], "seeds"
    assert [case.get("rate") for case in cases] == [0, None] + [0.05] * 3 + [0.1] + [0.074074] * 3, str(
        [case.get("rate") for case in cases]
    )
    assert cases[1]["losses"] == [3, 9] and cases[1]["loss"] == "3+9" and "losses" not in cases[0], "listed losses"
    for case in cases[2:]:
        share = len(case["losses"]) / 4000
        assert abs(share / case["rate"] - 1) < 0.25 and case["losses"][-1] < 4000, "%s: %g lost" % (case["name"], share)
    assert len({json.dumps(case["losses"]) for case in cases[2:]}) == 7, "two seeds draw alike"
    assert ccp("campaign", given=json.dumps(scenario))[2] == 0, "campaign refuses it"


def test_bursts_are_as_long_as_asked_for():
    """Bursts begin after a packet that came through with the chance P, and have 1/R packets on average."""
    case = made("--senders", "reno", "--losses", "gilbert:0.01:0.2", "--acks", 65536, TRACES[0])["cases"][0]
    lost = case["losses"]
    bursts = 1 + sum(b > a + 1 for a, b in zip(lost, lost[1:]))
    assert 4.5 < len(lost) / bursts < 5.5, "a burst has %g packets" % (len(lost) / bursts)
    assert abs(bursts / (2 * 65536 - len(lost)) / 0.01 - 1) < 0.1, "%d bursts" % bursts


def test_equal_seeds_lose_equal_packets():
    """Whatever the trace, the sender, the queue and the length; a lower chance loses some of those of a higher one."""
    cases = made("--queue", "20,200", "--losses", "rate:0.02", "--seeds", "5", "--acks", 300, *TRACES)["cases"]
    assert len({json.dumps(case["losses"]) for case in cases}) == 1, "two cases of one seed lose differently"
    long = made("--senders", "reno", "--losses", "rate:0.02,rate:0.04", "--seeds", "5", "--acks", 600, TRACES[0])[
        "cases"
    ]
    assert [number for number in long[0]["losses"] if number < 600] == cases[0][
        "losses"
    ], "a longer case begins differently"
    assert set(long[0]["losses"]) < set(long[1]["losses"]), "the chances don't nest"


# ---- length


def test_seconds():
    """As many acknowledgements as the link has chances in the seconds less the delay; a busy flow ends about then."""
    scenario = made("--senders", "reno", "--seconds", "4", "--delay-ms", "20,100.5", *TRACES)
    # fixed: a chance each ms; wave: a packet each ms on average over its 4 s; train: 2 a ms outside its gaps of 1.2 s
    assert scenario["cases"][0]["acks"] == 3980 and scenario["cases"][1]["acks"] == 3899, "acknowledgements"
    printed, errors, status = ccp("campaign", given=json.dumps(scenario))
    assert status == 0, errors
    ends = [int(row.split(" ")[12]) for row in printed.split("\n")[1:7]]
    assert min(ends) >= 4e6 and max(ends[:4]) < 4.5e6, "the runs end at %s" % ends
    refused(1, "--seconds 65.556", "--senders", "reno", "--seconds", "70", TRACES[0])
    assert made("--senders", "reno", "--seconds", "65.556", TRACES[0])["cases"][0]["acks"] == 65536, "the longest"
    refused(1, "no chance", "--senders", "reno", "--seconds", "0.02", TRACES[0])


# ---- names


def test_directions_of_one_recording_stay_apart(tmp_path):
    paths = [
        trace_file(tmp_path, name, [1, 2])
        for name in ("Verizon-LTE-driving.down", "Verizon-LTE-driving.up", "TMobile-LTE-short.down", "a b.trace")
    ]
    scenario = made(
        *TWO_AGENTS, "--queue", "10,20", "--delay-ms", "5,10", "--losses", "rate:0.1", "--seeds", "9..11", *paths
    )
    assert list(scenario["traces"]) == [
        "Verizon-LTE-driving.down",
        "Verizon-LTE-driving.up",
        "TMobile-LTE-short.down",
        "a-b",
    ], str(list(scenario["traces"]))
    names = names_of(scenario)
    assert len(set(names)) == 96 and max(map(len, names)) == 32, "names: %s" % names
    assert names[0] == "Verizo..g.down-reno-q10-d5-s9" and "Verizo..ing.up-reno-q10-d5-s9" in names, str(names[:2])
    named = made("down=" + paths[0], paths[1])
    assert (
        list(named["traces"]) == ["down", "Verizon-LTE-driving.up"] and named["cases"][0]["trace"] == "down"
    ), "NAME=FILE"
    assert list(made(paths[0], paths[0])["traces"]) == [
        "Verizon-LTE-driving.down",
        "Verizon-LTE-driving.down-2",
    ], "one file twice"
    refused(1, "two traces have the name x", "x=" + paths[0], "x=" + paths[1])
    refused(2, "isn't NAME=FILE", "a b=" + paths[0])
    long = trace_file(tmp_path, "x" * 60 + ".down", [1])
    assert list(made(long)["traces"]) == ["x" * 15 + ".." + "x" * 10 + ".down"], str(list(made(long)["traces"]))


# ---- traces and limits


def test_a_bad_file_is_refused_with_its_line(tmp_path):
    path = os.path.join(tmp_path, "bad.trace")
    for text, place in (
        ("1\n2\nx\n", ":3:"),
        ("5\n4\n", ":2:"),
        ("", "no time"),
        ("0\n0\n", "last time is 0"),
        ("1\n-2\n", ":2:"),
        ("1\n3600001\n", ":2:"),
    ):
        with open(path, "w", encoding="ascii") as file:
            file.write(text)
        refused(1, place, path)
    refused(1, "no-such-file: No such file", "no-such-file")


def test_no_trace_is_cut_unless_asked_for(tmp_path):
    path = trace_file(tmp_path, "long.trace", range(1, 200_000))
    for words in (["--acks", 10], ["--acks", 60000, "--losses", "rate:0.5", "--seeds", "1..9", TRACES[0]]):
        refused(1, "bytes", *words, path)
    refused(1, "alone has", "--whole", path)
    text, errors, status = command("scenario", "--acks", 10, "--cut", 100_000, path)
    assert status == 0 and "cut at 100000 of its 199999 ms" in errors and len(text) <= 1_048_576, errors
    assert json.loads(text)["traces"]["long"] == "".join("%d\n" % time for time in range(1, 100_001)), "the cut trace"
    assert ccp("campaign", given=text)[2] == 0, "campaign refuses it"
    path = trace_file(tmp_path, "hours.trace", [1, 3_600_000, 3_600_001])
    assert made("--cut", 3_600_000, path)["traces"]["hours"] == "1\n3600000\n", "times past an hour"
    refused(1, "leaves nothing", "--cut", 10, trace_file(tmp_path, "late.trace", [20, 30]))


def test_the_size():
    """--dry-run prints the size in place of the scenario, and refuses what the scenario would be refused for."""
    printed, errors, status = command(
        "scenario", *TWO_AGENTS, "--dry-run", "--queue", "10,20", "--acks", 100, *TRACES[:2]
    )
    size = len(command("scenario", *TWO_AGENTS, "--queue", "10,20", "--acks", 100, *TRACES[:2])[0])
    assert (
        status == 0
        and not errors
        and printed.startswith(
            "cases=8 of at most 1024\nbytes=%d of at most 1048576\nacknowledgements=800\n"
            "trace fixed chances=100 seconds=0.1 bytes=" % size
        )
    ), printed
    printed, errors, status = command(
        "scenario", *TWO_AGENTS, "--dry-run", "--for", "timeline", "--queue", "1..40", TRACES[0]
    )
    assert status == 1 and printed.startswith("cases=80 of at most 64\n") and "80 cases" in errors, errors


def test_limits():
    for words in (
        ["--queue", "0"],
        ["--senders", "vegas"],
        ["--mss", "70000"],
        ["--delay-ms", "1.2345"],
        ["--losses", "5+5"],
        ["--losses", "rate:0.6"],
        ["--losses", "gilbert:0.5"],
        ["--losses", "gilbert:0.5:0.4"],
        ["--losses", "rate:x"],
        ["--seeds", "5..2"],
        ["--queue", "9..3"],
        ["--queue", "1..9:0"],
        ["--acks", "5", "--seconds", "5"],
        ["--seconds", "0"],
        ["--steps", "a"],
        ["--for", "rollout"],
        ["--for", "shared"],
        ["--shared", "fixed:1:1:1"],
        ["--for", "live", "--whole"],
        ["--cut", "0"],
        ["--portus", "a b=c"],
        ["--seeds", "1..3"],
        ["--seeds", "1..3", "--losses", "none,rate:0.1:7"],
    ):
        refused(2, "", *words, TRACES[0])
    refused(1, "no --portus", "--senders", "reno:mine", TRACES[0])
    refused(1, "80 cases", *TWO_AGENTS, "--for", "live", "--queue", "1..40", TRACES[0])
    refused(1, "ccp over --timeline", "--for", "timeline", "--queue", "1..40", TRACES[0])
    refused(1, "320000 acknowledgements", *TWO_AGENTS, "--for", "acks", "--queue", "1..8", "--acks", 20000, TRACES[0])
    refused(1, "1200 cases", *TWO_AGENTS, "--queue", "1..600", TRACES[0])
    assert len(made(*TWO_AGENTS, "--whole", "--queue", "1..600", TRACES[0])["cases"]) == 1200, "--whole"
    assert (
        len(made(*TWO_AGENTS, "--for", "timeline", "--whole", "--queue", "1..40", TRACES[0])["cases"]) == 80
    ), "--whole of a timeline"


def test_standard_input():
    text, errors, status = command("scenario", "--senders", "reno", "-", given=TRACES[0].read_text())
    assert status == 0 and list(json.loads(text)["traces"]) == ["trace"], errors


# ---- other modes


def test_a_rollout(tmp_path):
    for name, text in (("slow", "(def) (when true (report))"), ("typo", "(def) (when x)")):
        with open(os.path.join(tmp_path, name), "w", encoding="utf-8") as file:
            file.write(text)
    programs = [word for name in ("slow", "typo") for word in ("--portus", "%s=%s/%s" % (name, tmp_path, name))]
    scenario = made(
        "--for", "rollout", *programs, "--steps", "slow,slow+typo", "--acks", 50, "--queue", "10,20", TRACES[0]
    )
    assert [case["steps"] for case in scenario["cases"]] == [
        ["slow"],
        ["slow"],
        ["slow", "typo"],
        ["slow", "typo"],
    ] and scenario["cases"][0]["cwnd"] == 14480, "cases"
    assert names_of(scenario)[2] == "fixed-slow.typo-q10", str(names_of(scenario))
    printed, errors, status = ccp("rollout", given=json.dumps(scenario))
    assert status == 0 and printed.count("step 1 refused") == 2, errors
    refused(1, "no --portus", "--for", "rollout", *programs, "--steps", "slow+other", TRACES[0])


def test_flows_that_start_later():
    words = ["--for", "shared-acks", "--senders", "reno,cubic,reno", "--shared", "fixed:100:5", "--seconds", "9"]
    for given, starts in (("5", [0, 5_000_000, 10_000_000]), ("0,2.5,1", [0, 2_500_000, 1_000_000]), ("0", [0, 0, 0])):
        scenario = made(*words, "--start", given, TRACES[0])
        assert [case["start_us"] for case in scenario["cases"]] == starts
    refused(1, "2 values for 3 flows", *words, "--start", "0,5", TRACES[0])
    refused(1, "would start after 10000 s", *words, "--start", "9999", TRACES[0])
    refused(2, "isn't a number of seconds from 0 to 10000", *words, "--start", "0,10000.001,1", TRACES[0])
    refused(2, "it needs --shared", "--start", "5", TRACES[0])


def test_a_shared_link():
    words = ["--for", "shared", "--senders", "reno,reno,cubic", "--delay-ms", "20,40"]
    scenario = made(*words, "--shared", "fixed:100:1:500", TRACES[0])
    assert (
        scenario["shared"] == {"trace": "fixed", "queue": 100, "quantum_us": 1000, "rounds": 500}
        and len(scenario["cases"]) == 6
    ), str(scenario["shared"])
    assert ccp("shared", given=json.dumps(scenario))[2] == 0, "shared refuses it"
    scenario = made(*words, "--shared", "fixed:100:2.5", "--seconds", "2", TRACES[0])
    assert scenario["shared"]["rounds"] == 800 and scenario["cases"][0]["acks"] == 2000, "seconds of a shared link"
    printed, errors, status = ccp("shared", given=json.dumps(scenario))
    assert status == 0 and "link rounds=800 " in printed, errors
    refused(1, "there is no trace other", *words, "--shared", "other:1:1:1", TRACES[0])
    refused(1, "at most 10000", *words, "--shared", "fixed:100:0.1", "--seconds", "2", TRACES[0])


def test_a_timeline():
    scenario = made(
        *TWO_AGENTS, "--for", "timeline", "--losses", "rate:0.01", "--seeds", "1..4", "--acks", 500, *TRACES
    )
    printed, errors, status = ccp("timeline", given=json.dumps(scenario))
    assert status == 0 and printed.count("\nend ") == 24, errors


# ---- one form of words


def test_old_words_are_accepted_with_a_warning():
    new = made("--senders", "reno,cubic", "--queue", "10..30:10", TRACES[0])
    text, errors, status = command("scenario", "--agents", "reno,cubic", "--queue", "10:30:10", TRACES[0])
    assert status == 0 and json.loads(text) == new
    assert errors.split("\n") == [
        "ccp: warning: --agents is now --senders",
        "ccp: warning: 10:30:10: a range is written 10..30:10",
        "",
    ]


def test_a_sender_names_the_file_of_its_program(tmp_path):
    path = tmp_path / "mine.portus"
    shutil.copyfile(EXAMPLES / "reno_ss.portus", path)
    scenario = made("--senders", "mine=%s, late=cubic::%s" % (path, path), TRACES[0])
    text = path.read_text()
    assert scenario["programs"] == {"mine": text, "late.ca": text}
    assert [(case["agent"], case.get("ss"), case.get("ca"), case["sender"]) for case in scenario["cases"]] == [
        ("reno", "mine", "mine", "mine"),
        ("cubic", None, "late.ca", "late"),
    ]
    refused(1, "No such file", "--senders", "mine=%s/none.portus" % tmp_path, TRACES[0])
