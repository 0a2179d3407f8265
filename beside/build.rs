// Links the proved code into the programs, and only there. DUGWALEN_STATICLIB_DIR names the folder of the archives.
use std::env;
use std::path::PathBuf;

fn main() {
    println!("cargo::rerun-if-env-changed=DUGWALEN_STATICLIB_DIR");
    println!("cargo::rustc-check-cfg=cfg(agent_linked)");
    let folder = match env::var_os("DUGWALEN_STATICLIB_DIR") {
        Some(folder) => PathBuf::from(folder),
        None => PathBuf::from(env::var_os("CARGO_MANIFEST_DIR").unwrap()).join("../target/staticlib"),
    };
    let agent = folder.join("libdugwalen.a");
    println!("cargo::rerun-if-changed={}", agent.display());
    if agent.exists() {
        println!("cargo::rustc-cfg=agent_linked");
        println!("cargo::rustc-link-arg-bin=differential={}", agent.display());
        println!("cargo::rustc-link-arg-bin=benchmark={}", agent.display());
    }
    if env::var_os("CARGO_FEATURE_STORE").is_some() {
        for name in ["libbench.a", "libbench_explain.a", "libbench_match.a", "libbench_principal.a", "libbench_sets.a", "libbench_walk.a"] {
            let bench = folder.join(name);
            println!("cargo::rerun-if-changed={}", bench.display());
            println!("cargo::rustc-link-arg-bin=benchmark={}", bench.display());
        }
    }
}
