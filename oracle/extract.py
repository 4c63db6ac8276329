#!/usr/bin/env python3
"""Extracts the needed items of the Rust source by name, puts document 01's elementary numbers and sums from +0.0 in the place of
std's, makes every item and field pub, and writes one file for src/source.rs to include.

Usage: extract.py SOURCE OUT [--std-sum]
SOURCE is the folder with lab/src and crates/geopotential/src; --std-sum keeps Iterator::sum, which starts at -0.0.
"""
import hashlib
import re
import sys

args = [a for a in sys.argv[1:] if not a.startswith("--")]
SOURCE, OUT = args
STD_SUM = "--std-sum" in sys.argv

def read(name):
    return open(f"{SOURCE}/{name}", encoding="utf-8").read().split("\n")

T1 = read("lab/src/t1.rs"); SH = read("lab/src/shared.rs")
CO = read("crates/geopotential/src/coefficients.rs"); LE = read("crates/geopotential/src/legendre.rs")
SY = read("crates/geopotential/src/synthesis.rs")

def item(lines, pattern, indent=""):
    """The item whose first line matches `pattern` (after `indent`), with the #[derive] lines above it."""
    hits = [i for i, l in enumerate(lines) if re.match(indent + r"(pub(\(crate\))? )?" + pattern, l)]
    assert len(hits) == 1, (pattern, hits)
    i = j = hits[0]
    while lines[i - 1].strip().startswith("#["):
        i -= 1
    i0 = i
    if lines[j].split("//")[0].rstrip().endswith(";"):
        end = j
    else:
        end = next(k for k in range(j, len(lines)) if lines[k].rstrip() in (indent + "}", indent + "];", indent + "};"))
    return "\n".join(l for l in lines[i0:end + 1] if "cfg_attr" not in l and not l.strip().startswith("///"))

def fn(lines, name, indent=""):
    return item(lines, rf"fn {name}\b", indent)

out = []
# geopotential
out.append(item(LE, "const MAX_DEGREE")); out.append(item(LE, "const SCALE"))
out.append(fn(LE, "idx"))
out.append(item(LE, "struct Legendre"))
out.append("impl Legendre {")
for f in ["new", "max_degree", "compute", "compute_with_derivative", "p", "dp"]:
    out.append(fn(LE, f, "    "))
out.append("}")
out.append(fn(LE, "derive"))
out.append(item(CO, "enum TideSystem"))
out.append(item(CO, "struct Coefficients"))
out.append("impl Coefficients {")
for f in ["zeros", "max_degree", "c", "s", "set", "checked", "rescaled"]:
    out.append(fn(CO, f, "    "))
out.append(fn(SY, "partials", "    "))
out.append("}")
out.append(item(SY, "struct Partials"))
out.append("impl Partials {"); out.append(fn(SY, "acceleration_neu", "    ")); out.append("}")
# shared
out.append("pub mod shared {\n    use super::*;")
out.append(fn(SH, "ols"))
out.append("}")
out.append(item(SH, "struct Rng")); 
out.append("impl Rng {")
for f in ["new", "next_u64", "below"]: out.append(fn(SH, f, "    "))
out.append("}")
# t1
for c in ["OMEGA", "GM_E", "R_E", "GM_SUN", "GM_MOON", "DT", "BAND"]:
    out.append(item(T1, f"const {c}\\b"))
out.append(item(T1, "type V3"))
for f in ["dot", "sub", "add", "scale", "norm"]: out.append(fn(T1, f))
out.append(item(T1, "struct Satellite"))
for f in ["gravity", "sun_moon", "third_body", "solid_tide", "fictitious"]: out.append(fn(T1, f))
out.append(item(T1, "enum Nodal")); out.append(item(T1, "const CONSTITUENTS"))
for f in ["tidal_arguments", "nodal", "analyse_grid"]: out.append(fn(T1, f))
out.append(item(T1, "struct OceanTide"))
out.append("impl OceanTide {")
for f in ["weights", "add_to"]: out.append(fn(T1, f, "    "))
out.append("}")
out.append(item(T1, "struct Model")); out.append(item(T1, "impl Model"))
for f in ["tides", "empirical", "j2_gravity", "integrate"]: out.append(fn(T1, f))
out.append(item(T1, "struct Arc")); out.append(fn(T1, "fit_orbit"))
out.append(item(T1, "type States")); out.append(fn(T1, "fitted_orbits"))
# the arc of a window, two lines within fitted_orbits, as a function
laid = [next(l for l in T1 if re.match(rf"\s+let {name} = .*1800\.0.*;$", l)).strip() for name in ("t0", "steps")]
out.append("\n".join(["fn arc_of(a: f64, b: f64) -> Arc {", *laid, "Arc { t0, steps, node: a, period: b - a }", "}"]))
out.append(item(T1, "struct Epoch")); out.append(item(T1, "struct Inputs"))
for f in ["epoch", "residuals", "revolutions", "detrend", "remove_per_revolution", "ascending_nodes"]: out.append(fn(T1, f))
out.append(item(T1, "type Biquad"))
for f in ["butterworth_band", "run", "filtfilt", "band_pass"]: out.append(fn(T1, f))
text = "\n".join(out)

rules = [(r"\.sin\(\)", ".sine_01()"), (r"\.cos\(\)", ".cosine_01()"), (r"\.sin_cos\(\)", ".sin_cos_01()"),
         (r"\.asin\(\)", ".arcsine_01()"), (r"\.atan2\(", ".arctangent_01("), (r"\.powi\(", ".power_01("),
         (r"\.to_radians\(\)", ".radians_01()"), (r"\bTIDE_NMAX\b", "tide_nmax_01()"), (r"\bNMAX\b", "nmax_01()"),
         (r"std::thread::available_parallelism\(\)\.map_or\(4, \|n\| n\.get\(\)\.min\(16\)\)", "1usize"),
         (r"crate::shared::ols", "shared::ols")]
if not STD_SUM:
    rules.append((r"\.sum::<f64>\(\)", ".fold(0.0f64, |a, b| a + b)"))
for pat, rep in rules:
    text, n = re.subn(pat, rep, text)
    print(f"{n:4d} x {pat} -> {rep}")


def public(text):
    """Every item, method and field pub."""
    text = text.replace("pub(crate) ", "pub ")
    text = re.sub(r"^(    )?(fn|struct|enum|const|type|mod) ", lambda m: (m.group(1) or "") + "pub " + m.group(2) + " ", text, flags=re.M)
    lines, inside = [], False
    for line in text.split("\n"):
        if re.match(r"pub struct \w+(<[^>]*>)? \{$", line):
            inside = True
        elif line.startswith("}"):
            inside = False
        elif inside:
            line = re.sub(r"^    (\w+):", r"    pub \1:", line)
        lines.append(line)
    return "\n".join(lines)


text = public(text)
left = re.findall(r"\.(?:tan|exp|ln|log10|powf|hypot|cbrt|acos|atan|to_degrees|mul_add|rem_euclid|floor|ceil|round|sqrt|sum|abs|total_cmp)\b(?:::<f64>)?\(", text)
print("std float methods left in place:", {m: left.count(m) for m in sorted(set(left))})
header = "// Made by extract.py from FusionVault/physica 52f1dbc835 (MIT); do not edit, do not commit.\n"
open(OUT, "w").write(header + text + "\n")
print("sha256", hashlib.sha256(text.encode()).hexdigest()[:16], len(text.split("\n")), "lines ->", OUT)
