#!/usr/bin/env python3
"""Whether the sessions would tell a wrong unit: edits of the Rust and of the reference, one at a time.

Each edited reference is run on a session; where its answers are those of the proved program, the edit was
not found, and the run fails.

    oracle/broken.py SESSION PRINTED     what unitlines printed for the session
"""
import subprocess
import sys
from pathlib import Path

ORACLE = Path(__file__).resolve().parent
MADE = ORACLE.parent / "target/oracle/broken"

MANAGER = [
    # Due
    ("now_ms.wrapping_sub(start_ms) >= duration", "now_ms.wrapping_sub(start_ms) > duration"),
    ("now_ms.wrapping_sub(start_ms) >= duration", "now_ms.saturating_sub(start_ms) >= duration"),
    # requests
    ("        self.last_request_ms = Some(now_ms);\n", ""),
    ("Self::Output4 => Self::Output1", "Self::Output4 => Self::Output2"),
    # a frame before the acknowledgement
    ("                queued_at_ms,\n                ..\n            }) if request.op", "                queued_at_ms,\n                early_observation: None,\n            }) if request.op"),
    # timeouts and the quiet time
    ("                self.quiet_since_ms = now_ms;\n", ""),
    ("                self.quiet_since_ms = now_ms;\n", "                self.parser.reset();\n                self.quiet_since_ms = now_ms;\n"),
    ("self.quiet_since_ms.max(ack.started_at_ms)", "self.quiet_since_ms"),
    ("self.quiet_since_ms.max(ack.started_at_ms)", "ack.started_at_ms"),
    ("self.quiet_since_ms.max(observed_at_ms)", "self.quiet_since_ms"),
    ("self.quiet_since_ms.max(observed_at_ms)", "observed_at_ms"),
    # recovery
    ("now_ms.saturating_sub(self.quiet_since_ms)", "now_ms.wrapping_sub(self.quiet_since_ms)"),
    ("quiet_ms < self.recovery_quiet_ms()", "quiet_ms <= self.recovery_quiet_ms()"),
    ("STEPS: u32 = 3", "STEPS: u32 = 2"),
    ("STEPS: u32 = 3", "STEPS: u32 = 4"),
    ("!self.faulted || armed ||", "!self.faulted ||"),
    ("        self.parser.reset();\n        self.samples", "        self.samples"),
    ("        self.samples = [None; 4];\n", ""),
    # retries and their note
    ("without_frame.saturating_add(1)", "without_frame.saturating_add(1).min(5)"),
    ("if self.retries_without_frame != 0 {\n            self.back", "if self.retries_without_frame > 1 {\n            self.back"),
    ("                self.stats.unsolicited", "                self.note_frame();\n                self.stats.unsolicited"),
    ("self.back_after_retries.take()", "self.back_after_retries"),
    ("        self.stats.wire = self.parser.stats();\n\n", ""),
    # the idle check
    ("self.min_erpm_div100 > 0\n            && ", ""),
    ("self.min_erpm_div100 < self.max", "self.min_erpm_div100 <= self.max"),
    ("self.spinup_grace_ms < self.timeout_ms", "self.spinup_grace_ms <= self.timeout_ms"),
    ("            && self.max_sample_age_ms > 0\n", ""),
    ("            && self.required_consecutive_samples > 0\n", ""),
    ("erpm > self.config.max", "erpm >= self.config.max"),
    ("erpm < self.config.min", "erpm <= self.config.min"),
    ("samples[index].saturating_add(1)", "samples[index].wrapping_add(1)"),
    ("max_sample_age_ms.saturating_add(1)", "max_sample_age_ms"),
    ("max_sample_age_ms.saturating_add(1)", "max_sample_age_ms.wrapping_add(1)"),
    ("*count >= self.config", "*count > self.config"),
    ("        self.terminal = Some(status);\n", ""),
]
PARSER = [
    ("self.len = FRAME_LEN - 1;", "self.len = 0;"),
    ("self.bytes.copy_within(1..FRAME_LEN, 0);\n", ""),
    ("self.stats.discarded_bytes = self.stats.discarded_bytes.saturating_add(1);\n", ""),
    ("u16::from_be_bytes([frame[3], frame[4]])", "u16::from_le_bytes([frame[3], frame[4]])"),
]
UNIT = [
    ("lowest.min(t.voltage_cv)", "t.voltage_cv"),
    ("(0, _, _) => (1, t.temperature_c, t.voltage_cv)", "(0, h, l) => (1, h.max(t.temperature_c), l.min(t.voltage_cv))"),
    ("status(q.observe(u, now))", "status(q.observe(u, u.observation.observed_at_ms))"),
]
LAYOUT = [
    ("line.len() > 58", "line.len() > 57"),
    ('b"0123456789ABCDEF"', 'b"0123456789ABCDEf"'),
    ("        values[CAPITALS[d] as usize] = d as u8;\n", "        values[CAPITALS[d] as usize] = d as u8;\n        values[b'G' as usize] = 15;\n"),
    ("[c] if VALUES[*c as usize] > 15 => Err(2),", ""),
    ("|k| **k <= 0x0e", "|k| **k <= 0x0d"),
    ("|l| *l <= 3", "|l| *l <= 2"),
    ("_ => Err(7)", "_ => Err(6)"),
    ("(_, None) => Err(8)", "(_, None) => Err(4)"),
]
EDITS = {"rust/esc_manager.rs": MANAGER, "rust/lib.rs": PARSER, "unit.rs": UNIT, "layout.rs": LAYOUT}
CRATES = [
    ("ferrowasp_blheli_telemetry", "rust/lib.rs", []),
    ("heapless", "heapless.rs", []),
    ("esc_manager", "rust/esc_manager.rs", ["ferrowasp_blheli_telemetry", "heapless"]),
]


def compile_all():
    rustc = ["rustc", "--edition", "2021", "-O", "-A", "warnings", "-L", MADE, "--out-dir", MADE]
    for name, path, names in CRATES:
        subprocess.run([*rustc, "--crate-type", "rlib", "--crate-name", name, *(f"--extern={n}" for n in names), MADE / path], check=True)
    subprocess.run([*rustc, "--extern=ferrowasp_blheli_telemetry", "--extern=esc_manager", MADE / "reference.rs"], check=True)


def main():
    session, printed = (Path(word).read_bytes() for word in sys.argv[1:])
    sources = {path: (ORACLE / path).read_text() for path in (*EDITS, "heapless.rs", "reference.rs")}
    (MADE / "rust").mkdir(parents=True, exist_ok=True)
    missed = []
    for path, edits in EDITS.items():
        for old, new in edits:
            for name, text in sources.items():
                (MADE / name).write_text(text.replace(old, new, 1) if name == path else text)
            if old not in sources[path]:
                sys.exit(f"broken: {path} has no {old!r}")
            compile_all()
            done = subprocess.run([MADE / "reference"], input=session, capture_output=True, check=True)
            if done.stdout == printed:
                missed.append(f"broken: not found: {path}: {old!r} as {new!r}")
    print(*missed, sep="\n", end="\n" if missed else "")
    print(f"broken: {sum(map(len, EDITS.values())) - len(missed)} wrong units told by their answers, {len(missed)} not")
    sys.exit(1 if missed else 0)


main()
