//! Copies boundary_bundles.rs from the folder that SCHEMWEAVE_SRC names, patches the copy and
//! leaves it in the build folder. Each patch is one exact replacement; the build fails where the
//! text to replace is not found exactly once.

use std::path::{Path, PathBuf};
use std::{env, fs};

const MODULE: &str = "crates/schemweave/src/boundary_bundles.rs";
const ROOT: &str = "crates/schemweave/src/lib.rs";

struct Patch {
    name: &'static str,
    from: &'static str,
    to: &'static str,
}

// README.md lists these line by line.
const PATCHES: [Patch; 14] = [
    Patch {
        name: "tap grant: parameters",
        from: "    separate_same_role_collectors: bool,
) -> Vec<Option<f64>> {
    let mut horizontal_tap_visits = MAX_INTERIOR_HORIZONTAL_TAP_VISITS;
",
        to: "    separate_same_role_collectors: bool,
    tap_visits: &mut usize,
    clamp_refused: &mut bool,
) -> Vec<Option<f64>> {
    let mut horizontal_tap_visits = *tap_visits;
",
    },
    Patch {
        name: "tap grant: visits left",
        from: "    planned
}

fn collector_has_lane_separation(",
        to: "    *tap_visits = horizontal_tap_visits;
    planned
}

fn collector_has_lane_separation(",
    },
    Patch {
        name: "tap grant: the call that the stage does not use",
        from: "        plan_interior_collectors(&geometry_context, &layout.edges, allow_strict_crossings)
",
        to: "        plan_interior_collectors(
            &geometry_context,
            &layout.edges,
            allow_strict_crossings,
            &mut { MAX_INTERIOR_HORIZONTAL_TAP_VISITS },
            &mut false,
        )
",
    },
    Patch {
        name: "clamp of the input split: note instead of panic",
        from: "            let input_split = (earliest_separated_output
",
        to: "            if !(feasible_low <= latest_output_limit - context.pitch) {
                *clamp_refused = true;
                return planned;
            }
            harness::note(harness::Event::Split);
            let input_split = (earliest_separated_output
",
    },
    Patch {
        name: "events: a component with both roles",
        from: "        let feasible_low = inputs
",
        to: "        harness::note(harness::Event::Chain);
        let feasible_low = inputs
",
    },
    Patch {
        name: "events: given up",
        from: "        if feasible_low + context.pitch > latest_output_limit {
",
        to: "        if feasible_low + context.pitch > latest_output_limit {
            harness::note(harness::Event::GivenUp);
",
    },
    Patch {
        name: "events: input limit",
        from: "        if required_output_x > latest_output_limit {
",
        to: "        if required_output_x > latest_output_limit {
            harness::note(harness::Event::Limit);
",
    },
    Patch {
        name: "events: same-role separation",
        from: "                let desired = match range.role {
",
        to: "                harness::note(harness::Event::Separation);
                let desired = match range.role {
",
    },
    Patch {
        name: "pitch less the tolerance: in the plan",
        from: "                (*used_x - current_x).abs() < context.pitch - PRESERVED_GEOMETRY_EPSILON
",
        to: "                (*used_x - current_x).abs() < harness::less_tolerance(context.pitch)
",
    },
    Patch {
        name: "pitch less the tolerance: collector_has_lane_separation",
        from: "        .all(|used_x| (*used_x - candidate).abs() >= pitch - PRESERVED_GEOMETRY_EPSILON)
",
        to: "        .all(|used_x| (*used_x - candidate).abs() >= harness::less_tolerance(pitch))
",
    },
    Patch {
        name: "interior test: note its outcome",
        from: "        && (geometry.spine.end.x - geometry.spine.start.x).abs() >= rail_depth + pitch;
",
        to: "        && (geometry.spine.end.x - geometry.spine.start.x).abs() >= rail_depth + pitch;
    harness::note_interior(interior_collector);
",
    },
    Patch {
        name: "searches: note each one's runs",
        from: "    let mut candidates = vec![desired_x];
",
        to: "    harness::note_search(context, bundle, routes);
    let mut candidates = vec![desired_x];
",
    },
    Patch {
        name: "promotion candidates: bounds as a parameter",
        from: "    routes: &[EdgeGeometry],
    remaining: &mut usize,
) -> Vec<f64> {
    let Some(range) =
        interior_collector_bounds(context, bundle, routes, f64::NEG_INFINITY, f64::INFINITY)
    else {
",
        to: "    routes: &[EdgeGeometry],
    remaining: &mut usize,
) -> Vec<f64> {
    let range =
        interior_collector_bounds(context, bundle, routes, f64::NEG_INFINITY, f64::INFINITY);
    promotion_collector_candidates_in(context, bundle, routes, range, remaining)
}

fn promotion_collector_candidates_in(
    context: &BundleGeometryContext<'_, '_>,
    bundle: &IndexedBoundaryBundle,
    routes: &[EdgeGeometry],
    range: Option<InteriorCollectorRange>,
    remaining: &mut usize,
) -> Vec<f64> {
    let Some(range) = range else {
",
    },
    Patch {
        name: "promotion candidates: note whether the second search is spent",
        from: "        && let Some(offset_candidates) = common_horizontal_collector_xs(
            context,
            bundle,
            routes,
            range.minimum_x,
            adjacent_lane,
            range.maximum_x,
            remaining,
        )
",
        to: "        && let Some(offset_candidates) = harness::note_second(common_horizontal_collector_xs(
            context,
            bundle,
            routes,
            range.minimum_x,
            adjacent_lane,
            range.maximum_x,
            remaining,
        ))
",
    },
];

fn main() {
    println!("cargo:rerun-if-env-changed=SCHEMWEAVE_SRC");
    println!("cargo:rerun-if-changed=build.rs");
    let folder = source_folder();
    let module = read(&folder.join(MODULE));
    let root = read(&folder.join(ROOT));
    let out = PathBuf::from(env::var_os("OUT_DIR").expect("cargo sets OUT_DIR"));
    let here = PathBuf::from(env::var_os("CARGO_MANIFEST_DIR").expect("cargo sets it"));

    let mut patched = module.clone();
    for patch in &PATCHES {
        patched = replace_once(&patched, patch);
    }
    write(
        &out.join("patched.rs"),
        &(patched + &child(&here.join("src/harness.rs"))),
    );
    write(
        &out.join("unpatched.rs"),
        &(module + &child(&here.join("src/harness_unpatched.rs"))),
    );
    write(
        &out.join("rail_depth.rs"),
        &function(
            &root,
            "pub(crate) fn boundary_bundle_rail_depth(options: LayoutOptions) -> f64 {\n",
        ),
    );
}

fn fail(message: &str) -> ! {
    eprintln!("{message}");
    std::process::exit(1)
}

fn source_folder() -> PathBuf {
    let Some(folder) = env::var_os("SCHEMWEAVE_SRC") else {
        fail(&format!(
            "SCHEMWEAVE_SRC is not set: it names the folder that has {MODULE} in it \
             (the Rust source, which is not part of this repository)"
        ));
    };
    let folder = PathBuf::from(folder);
    for name in [MODULE, ROOT] {
        if !folder.join(name).is_file() {
            fail(&format!(
                "SCHEMWEAVE_SRC names {}, which has no {name}",
                folder.display()
            ));
        }
    }
    folder
}

fn read(path: &Path) -> String {
    println!("cargo:rerun-if-changed={}", path.display());
    fs::read_to_string(path).unwrap_or_else(|error| fail(&format!("{}: {error}", path.display())))
}

fn write(path: &Path, text: &str) {
    fs::write(path, text).unwrap_or_else(|error| fail(&format!("{}: {error}", path.display())));
}

fn replace_once(text: &str, patch: &Patch) -> String {
    let found = text.matches(patch.from).count();
    if found != 1 {
        fail(&format!(
            "patch '{}': its text is found {found} times in {MODULE} instead of once",
            patch.name
        ));
    }
    text.replacen(patch.from, patch.to, 1)
}

/// The child module that calls the private functions of the copy.
fn child(path: &Path) -> String {
    println!("cargo:rerun-if-changed={}", path.display());
    format!(
        "\npub(crate) mod harness {{\n    include!({:?});\n}}\n",
        path.display().to_string()
    )
}

/// One function of the Rust's crate root, as it stands there.
fn function(root: &str, head: &str) -> String {
    let parts = root.split(head).collect::<Vec<_>>();
    let end = match parts[..] {
        [_, after] => after.find("\n}\n").map(|end| &after[..end + 3]),
        _ => None,
    };
    match end {
        Some(body) => format!("{head}{body}"),
        None => fail(&format!("{ROOT} has not exactly one '{}'", head.trim_end())),
    }
}
