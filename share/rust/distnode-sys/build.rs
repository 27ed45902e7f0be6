// SPDX-License-Identifier: Apache-2.0
//! Finds libdistnode: in the folder that DISTNODE_LIB names, else by pkg-config. With DISTNODE_STATIC its archive is linked.

use std::env;
use std::process::Command;

fn main() {
    println!("cargo:rerun-if-env-changed=DISTNODE_LIB");
    println!("cargo:rerun-if-env-changed=DISTNODE_STATIC");
    println!("cargo:rerun-if-env-changed=PKG_CONFIG_PATH");
    if let Some(folder) = env::var("DISTNODE_LIB").ok().or_else(folder_by_pkg_config) {
        println!("cargo:rustc-link-search=native={folder}");
    }
    let kind = if env::var_os("DISTNODE_STATIC").is_some() {
        "static"
    } else {
        "dylib"
    };
    println!("cargo:rustc-link-lib={kind}=distnode");
}

fn folder_by_pkg_config() -> Option<String> {
    let ran = Command::new("pkg-config")
        .args(["--variable=libdir", "distnode"])
        .output()
        .ok()?;
    let folder = String::from_utf8(ran.stdout).ok()?.trim().to_string();
    (ran.status.success() && !folder.is_empty()).then_some(folder)
}
