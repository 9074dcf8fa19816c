//! Shows the compiler the repository's files, unchanged and where they lie, and the linker the
//! library.

use std::{
    env, fs,
    path::{Path, PathBuf},
};

/// The modules that the repository's files expect around themselves. The paths get their folder
/// below. Dead code is allowed because the files offer more than is used here.
const TREE: &str = r#"
#[allow(dead_code)]
mod any {
    pub use self::hitresult_generator::HitResultGenerator;
    pub use crate::repo::{HitResultPriority, InspectablePerformance};

    #[path = "any/hitresult_generator.rs"]
    pub mod hitresult_generator;
}

#[allow(dead_code)]
mod mania {
    pub use self::{performance::InspectManiaPerformance, score_state::ManiaHitResults};
    pub use crate::repo::{Mania, ManiaDifficultyAttributes};

    #[path = "mania/score_state.rs"]
    mod score_state;

    pub mod performance {
        pub use self::inspect::InspectManiaPerformance;

        #[path = "mania/performance/inspect.rs"]
        mod inspect;

        mod hitresult_generator {
            #[path = "mania/performance/hitresult_generator/closest.rs"]
            mod closest;
            #[path = "mania/performance/hitresult_generator/fast.rs"]
            mod fast;
            #[path = "mania/performance/hitresult_generator/ignore_acc.rs"]
            mod ignore_acc;
        }
    }
}

mod model {
    pub mod mode {
        pub use crate::repo::IGameMode;
    }
}

mod osu {
    pub use crate::repo::Osu;
}

mod taiko {
    pub use crate::repo::Taiko;
}

mod catch {
    pub use crate::repo::Catch;
}

use repo::Difficulty;
"#;

fn variable(name: &str) -> Option<PathBuf> {
    println!("cargo::rerun-if-env-changed={name}");

    env::var_os(name).map(PathBuf::from)
}

fn main() {
    let manifest = PathBuf::from(env::var_os("CARGO_MANIFEST_DIR").unwrap());
    let root = variable("NUQSILLAY_ROOT").unwrap_or_else(|| manifest.join("../.."));
    let rosu = variable("ROSU_SRC").unwrap_or_else(|| root.join("../shared/docs/src"));
    let src = fs::canonicalize(rosu.join("src"))
        .unwrap_or_else(|e| panic!("{}/src: {e} (set ROSU_SRC)", rosu.display()));

    println!("cargo::rerun-if-changed=build.rs");
    println!("cargo::rerun-if-changed={}", src.display());

    let tree = TREE.replace("#[path = \"", &format!("#[path = \"{}/", src.display()));
    let out = PathBuf::from(env::var_os("OUT_DIR").unwrap());
    fs::write(out.join("tree.rs"), tree).unwrap();

    let library = root.join("target/staticlib");
    println!(
        "cargo::rerun-if-changed={}/libnuqsillay.a",
        library.display()
    );
    println!("cargo::rustc-link-search=native={}", library.display());
    println!("cargo::rustc-link-lib=static=nuqsillay");
    println!("cargo::rustc-link-lib=m");

    // Part typed calls what a library may not have yet.
    println!("cargo::rustc-check-cfg=cfg(typed_calls)");

    if has_typed_calls(&library.join("libnuqsillay.a")) {
        println!("cargo::rustc-cfg=typed_calls");
    }
}

/// Whether both calls for typed sheets are named in the library.
fn has_typed_calls(library: &Path) -> bool {
    let bytes = fs::read(library).unwrap_or_default();
    let names = |name: &[u8]| bytes.windows(name.len()).any(|part| part == name);

    names(b"nuqsillay_sheet_of\0") && names(b"nuqsillay_text_of\0")
}
