"""The one place that has the version; bindings/rust/Cargo.toml and bindings/c/pozsmeteg_submission.h carry the same one."""

VERSION = "0.1.0"
