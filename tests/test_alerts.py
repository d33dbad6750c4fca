"""Judges examples/labntpd.rules.yml and examples/labntpd.dashboard.json, by Prometheus' own program over made-up statistics.

promtool is looked for on the path, and below $PEERS as tests/run unpacks Debian's package `prometheus` there; where it is not found, its
cases are passed over.
"""
import json
import re

import pytest

from judging import TOP, file_of, same
from peers import promtool

RULES = f"{TOP}/examples/labntpd.rules.yml"
DASHBOARD = f"{TOP}/examples/labntpd.dashboard.json"
STATISTICS = f"{TOP}/crates/ntp_reports/src/statistics.rt"

# What a daemon tells with which all is well, each minute for an hour: `START+STEPxTIMES`, as promtool writes it.
WELL = {
    "up": "1+0x60",
    'node_textfile_mtime_seconds{file="/run/labntp/labntpd.prom"}': "0+60x60",
    'labntp_build_info{version="0.2.0"}': "1+0x60",
    "labntp_start_time_seconds": "1000+0x60",
    'labntp_answers_total{answer="time",mode="basic"}': "0+6000x60",
    'labntp_answers_total{answer="time",mode="interleaved"}': "0+6000x60",
    'labntp_answers_total{answer="silent",reason="unregistered"}': "0+60x60",
    'labntp_answers_total{answer="silent",reason="muted"}': "0+0x60",
    'labntp_answers_total{answer="silent",reason="over-budget"}': "0+60x60",
    "labntp_receive_failures_total": "2+0x60",
    "labntp_send_failures_total": "0+0x60",
    "labntp_stale_total": "0+10x60",
    # Now and then a host has no processor for the daemon.
    "labntp_kernel_drops_total": "5+10x60",
    'labntp_commands_total{answer="done"}': "0+1x60",
    'labntp_commands_total{answer="faulty"}': "1+0x60",
    'labntp_commands_total{answer="refused",reason="key-taken"}': "1+0x60",
    "labntp_commands_octets": "5000+30x60",
    "labntp_customers": "100+1x60",
    "labntp_clock_synchronised": "1+0x60",
    "labntp_clock_age_seconds": "0.5+0x60",
    "labntp_clock_leap": "0+0x60",
    "labntp_clock_root_delay_seconds": "0.001+0x60",
    "labntp_clock_root_dispersion_seconds": "0.0005+0x60",
    "labntp_clock_offset_seconds": "0.00001+0x60",
    # No limit on its age is set.
    "labntp_clock_reference_age_seconds": "0+60x60",
    "labntp_clock_most_reference_age_seconds": "NaN+0x60",
    "labntp_clock_root_distance_seconds": "0.001+0x60",
    "labntp_clock_most_root_distance_seconds": "1+0x60",
    "labntp_log_lines_dropped_total": "3+0x60",
    'labntp_file_ok{file="commands"}': "1+0x60",
    'labntp_file_ok{file="customers"}': "1+0x60",
}

# Answers that are counted until the twentieth minute, and none after it.
NO_LONGER = "0+6000x20 120000+0x39"

# What becomes otherwise where an alarm fires, so long before the second look as its `for` wants; and the labels that the alarm has then.
FIRES = {
    "LabntpdSilent": ({'node_textfile_mtime_seconds{file="/run/labntp/labntpd.prom"}': "0+60x29 1740+0x30"}, {"file": "/run/labntp/labntpd.prom"}),
    "LabntpdReceiveFails": ({"labntp_receive_failures_total": "2+0x29 2+1980x30"}, {}),
    "LabntpdNoTime": ({f'labntp_answers_total{{answer="time",mode="{it}"}}': NO_LONGER for it in ("basic", "interleaved")}, {}),
    "LabntpdClockUnsynchronised": ({"labntp_clock_synchronised": "1+0x29 0+0x30"}, {}),
    "LabntpdClockOld": ({"labntp_clock_age_seconds": "0.5+0x29 1+60x30"}, {}),
    "LabntpdClockDispersed": ({"labntp_clock_root_dispersion_seconds": "0.0005+0x29 0.2+0x30"}, {}),
    "LabntpdClockFar": ({"labntp_clock_root_distance_seconds": "0.001+0x29 0.51+0x30"}, {}),
    "LabntpdClockReferenceOld": (
        {"labntp_clock_reference_age_seconds": "0.5+0x29 50001+0x30", "labntp_clock_most_reference_age_seconds": "100000+0x60"}, {}
    ),
    "LabntpdClockOffset": ({"labntp_clock_offset_seconds": "0.00001+0x29 -0.05+0x30"}, {}),
    "LabntpdStale": ({"labntp_stale_total": "0+1x29 30+600x30"}, {}),
    "LabntpdKernelDrops": ({"labntp_kernel_drops_total": "5+0x29 5+6000x30"}, {}),
    "LabntpdFlood": ({'labntp_answers_total{answer="silent",reason="unregistered"}': "0+60x29 1800+3000000x30"}, {}),
    "LabntpdSendsFail": ({"labntp_send_failures_total": "0+0x29 0+60x30"}, {}),
    "LabntpdFile": ({'labntp_file_ok{file="commands"}': "1+0x29 0+0x30"}, {"file": "commands"}),
    "LabntpdCommandsFull": ({"labntp_commands_octets": "5000+0x29 64000000+0x30"}, {}),
    "LabntpdApart": ({'labntp_commands_octets{instance="another"}': "5000+30x29 5870+0x30"}, {}),
    "LabntpdCommandsNotDone": ({'labntp_commands_total{answer="faulty"}': "1+0x29 1+1x30"}, {}),
    "LabntpdCustomersGone": ({"labntp_customers": "100+0x39 80+0x20"}, {}),
    "LabntpdLogDropped": ({"labntp_log_lines_dropped_total": "3+0x29 4+0x30"}, {}),
    "LabntpdRestarts": ({"labntp_start_time_seconds": "1000+0x35 3000+0x2 4000+0x22"}, {}),
    "LabntpdLeap": ({"labntp_clock_leap": "0+0x29 1+0x30"}, {}),
}

# A server beside the others, which stays a target, and has no statistics from the thirtieth minute on; `_` is no number at all.
SILENT = {'up{instance="another"}': "0+0x1500", 'labntp_build_info{instance="another",version="0.2.0"}': "1+0x29 _x30"}
# Where an alarm fires for another reason too, that and the same; and where it is looked later, when, in minutes.
FIRES_TOO = {
    "LabntpdSilent fires where there are no statistics": ({'labntp_build_info{version="0.2.0"}': "1+0x29 _x30"}, {}),
    "LabntpdSilent fires where one of two servers has none": (SILENT, {"instance": "another"}),
    "LabntpdSilent fires where it has had none for more than a day": (SILENT, {"instance": "another"}, 1_500),
    "none fires where it is no target any more": ({**SILENT, 'up{instance="another"}': "1+0x29 _x30"}, {}),
}

# What the dashboard shows besides, where all is well.
SHOWN = {it: "0+0x60" for it in ("labntp_send_would_wait_total", "labntp_queue_wait_seconds", "labntp_commands_changed")}
SHOWN |= {'labntp_answers_total{answer="rate"}': "0+0x60", 'labntp_clock_believed{why="believed"}': "1+0x60", "labntp_clock_stratum": "2+0x60"}
# When it is looked, in minutes.
BEFORE, AFTER = 20, 42


def test_each_metric_is_printed():
    with open(RULES) as rules, open(DASHBOARD) as dashboard, open(STATISTICS) as source:
        named = re.findall(r"\blabntp_\w+", " ".join([rules.read(), dashboard.read(), *WELL, *SHOWN]))
        same("unknown names", [], sorted({*named} - {*re.findall(r'"(labntp_\w+)"', source.read())}))


def panels():
    with open(DASHBOARD) as it:
        return json.load(it)["panels"]


def test_panels_of_the_dashboard_stand_beside_one_another():
    """None has another's number, lies upon another or beyond the edge."""
    found, taken = [], {}
    for number, it in enumerate(panels()):
        at = it["gridPos"]
        places = [(x, y) for x in range(at["x"], at["x"] + at["w"]) for y in range(at["y"], at["y"] + at["h"])]
        is_odd = it["id"] != number + 1 or max(x for x, _ in places) > 23 or not {*places}.isdisjoint(taken)
        taken |= dict.fromkeys(places)
        found += [it["title"]] if is_odd else []
    same("panels that do not", [], found)


def queries():
    """The queries of the dashboard, with what Grafana puts into the place of its variables."""
    texts = [target["expr"] for it in panels() for target in it.get("targets", [])]
    return [it.replace("$instance", ".*").replace("$__rate_interval", "5m") for it in texts]


def severities():
    """Each alarm with its severity and its summary, read as text: Python has no reader of YAML."""
    with open(RULES) as it:
        found = re.findall(r"- alert: (\w+)\n.*?severity: (\w+)\}\n\s+annotations:\n\s+summary: ([^\n]*)\n", it.read(), re.S)
    return {name: (severity, summary) for name, severity, summary in found}


def made_up(name, series, labels, alarms, after=AFTER):
    """A test of promtool: with these series the alarm does not fire before, and fires after; without a name none fires at all."""
    well = {one: values.replace("x60", f"x{after + 18}") for one, values in WELL.items()}
    severity, summary = alarms.get(name, ("", ""))
    summary = re.sub(r"\{\{ \$labels\.(\w+) \}\}", lambda it: labels[it[1]], summary)
    fired = [{"exp_labels": {"severity": severity, **labels}, "exp_annotations": {"summary": summary}}]
    looks = [(BEFORE, each, []) for each in alarms]
    looks += [(after, each, fired if each == name else []) for each in alarms if not name or each == name]
    return {
        "interval": "1m",
        "input_series": [{"series": one, "values": values} for one, values in {**well, **series}.items()],
        "alert_rule_test": [{"eval_time": f"{at}m", "alertname": each, "exp_alerts": alerts} for at, each, alerts in looks],
    }


def test_rules_are_well_formed():
    promtool("check", "rules", RULES)


def test_each_alarm_has_its_case():
    same("alarms", {*severities()}, {*FIRES})


@pytest.mark.parametrize("case", ["none fires where all is well", *(f"{it} fires" for it in FIRES), *FIRES_TOO])
def test_alarms(case):
    name = case.split()[0] if case.split()[0] in FIRES else ""
    series, labels, *after = FIRES_TOO.get(case) or FIRES.get(name) or ({}, {})
    # What is JSON is YAML too.
    rules = {"rule_files": [RULES], "evaluation_interval": "1m", "tests": [made_up(name, series, labels, severities(), *after)]}
    promtool("test", "rules", file_of("case.json", json.dumps(rules)))


def test_each_query_of_the_dashboard_finds_something():
    """For each query an alarm that it finds nothing; none is to fire."""
    absent = [{"alert": f"Query{number}", "expr": f"absent({it})"} for number, it in enumerate(queries())]
    absent_file = file_of("absent.json", json.dumps({"groups": [{"name": "dashboard", "rules": absent}]}))
    looks = [{"eval_time": f"{AFTER}m", "alertname": it["alert"], "exp_alerts": []} for it in absent]
    series = [{"series": one, "values": values} for one, values in {**WELL, **SHOWN}.items()]
    tests = [{"interval": "1m", "input_series": series, "alert_rule_test": looks}]
    promtool("test", "rules", file_of("dashboard.json", json.dumps({"rule_files": [absent_file], "tests": tests})))
