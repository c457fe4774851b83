# What check.sh and reading.sh measure beside: `bare`, a program that reads a file by the kit's TOML reader.
mkdir -p "$work/repository/crates/bare_toml/src"
cat >"$work/repository/crates/bare_toml/src/main.rt" <<'PROGRAM'
//! Reads a file as TOML and does nothing with it: what the reading alone costs.
#![tactic(auto)]

use std::env;
use std::fs;
use std::io::Read;
use std::process::ExitCode;

fn main(rt: HostRuntime) -> ExitCode {
    let alloc = rt.alloc();
    let Ok(args) = env::args(&rt) else {
        return ExitCode::from(1);
    };
    for name in args.skip(1) {
        let Ok(mut file) = fs::open(&rt, name.as_str()) else {
            return ExitCode::from(3);
        };
        let mut bytes = Vec::new(alloc);
        if file.read_to_end(&mut bytes).is_err() {
            return ExitCode::from(3);
        }
        let Ok(text) = std::str::from_utf8(bytes.as_slice()) else {
            return ExitCode::from(2);
        };
        if toml::table_from_str(alloc, text).is_err() {
            return ExitCode::from(2);
        }
    }
    ExitCode::from(0)
}
PROGRAM
echo 'bare_toml: toml' >"$work/repository/crates.txt"
git -C "$work/repository" init -q
(cd "$work/repository/crates/bare_toml" && rt run -- "$top/examples/flat.toml") >>"$work/log" 2>&1
bare=$work/repository/crates/bare_toml/out/bare_toml
