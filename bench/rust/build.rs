//! Links the archive of the proved library, which stands in the folder that `ARCHIVE` names. Where the archive has
//! `bench_satisfies` (bench/run gives that name to the library's function), `check_digit` is set.

fn main() {
    let folder = std::env::var("ARCHIVE").expect("ARCHIVE: the folder of libproved.a; bench/run sets it");
    println!("cargo:rerun-if-env-changed=ARCHIVE");
    println!("cargo:rerun-if-changed={folder}/libproved.a");
    println!("cargo:rustc-link-search=native={folder}");
    println!("cargo:rustc-link-lib=static=proved");
    println!("cargo:rustc-check-cfg=cfg(check_digit)");
    let (archive, name) = (std::fs::read(format!("{folder}/libproved.a")), b"bench_satisfies");
    if archive.is_ok_and(|bytes| bytes.windows(name.len()).any(|part| part == name)) {
        println!("cargo:rustc-cfg=check_digit");
    }
}
