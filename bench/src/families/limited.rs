//! The families with a limit: many names, and many questions about them.

use super::{Family, Limit, grown};
use crate::sample::Sample;
use differential::shapes::{bodies, sections, sets, targets};

/// The sizes of the families with a limit.
const SIZES: &[usize] = &[65_536, 262_144, 1_048_576];

/// The limit of most families.
const TIMES: Option<Limit> = Some(Limit::Times {
    novel: 20,
    smallest: 25,
});

/// The limit where the names are more than a set of names has room for, or all have one place in it.
const SECONDS: Option<Limit> = Some(Limit::Seconds(20));

/// The families with a limit.
pub const FAMILIES: [Family; 17] = [
    Family {
        title: "root temps",
        about: "temps in the root, each of another name; accepted",
        sizes: SIZES,
        limit: TIMES,
        make: |size| vec![Sample::of(grown(size, bodies::root_of_temps))],
    },
    Family {
        title: "knot temps",
        about: "a knot with one label and temps, each of another name; accepted",
        sizes: SIZES,
        limit: TIMES,
        make: |size| vec![Sample::of(grown(size, bodies::knot_of_temps))],
    },
    Family {
        title: "stitch variables",
        about: "a knot and its stitch set one temp; the stitch reads it thousands of times before; accepted",
        sizes: SIZES,
        limit: TIMES,
        make: |size| vec![Sample::of(grown(size, bodies::stitch_variables))],
    },
    Family {
        title: "late gather",
        about: "gathers of different names in the root, but the last two are alike: breach 10",
        sizes: SIZES,
        limit: TIMES,
        make: |size| vec![Sample::of(grown(size, bodies::late_gather))],
    },
    Family {
        title: "gathers",
        about: "a knot of text and then of gathers, each of another name; accepted",
        sizes: SIZES,
        limit: TIMES,
        make: |size| vec![Sample::of(grown(size, bodies::gathers))],
    },
    Family {
        title: "parameters and globals",
        about: "globals, and as many parameters, 255 in a knot; accepted",
        sizes: SIZES,
        limit: TIMES,
        make: |size| vec![Sample::of(grown(size, sections::parameters_and_globals))],
    },
    Family {
        title: "stitches and globals",
        about: "globals, and as many stitches, 255 in a knot; accepted",
        sizes: SIZES,
        limit: TIMES,
        make: |size| vec![Sample::of(grown(size, sections::stitches_and_globals))],
    },
    Family {
        title: "calls and externals",
        about: "externals, and as many calls of a name that none has; accepted",
        sizes: SIZES,
        limit: TIMES,
        make: |size| vec![Sample::of(grown(size, sections::calls_and_externals))],
    },
    Family {
        title: "calls and flows",
        about: "knots, and as many calls of a name that none has; accepted",
        sizes: SIZES,
        limit: TIMES,
        make: |size| vec![Sample::of(grown(size, sections::calls_and_flows))],
    },
    Family {
        title: "relative",
        about: "labels of stitches, each diverted to as stitch.label and as knot.stitch.label; accepted",
        sizes: SIZES,
        limit: TIMES,
        make: |size| vec![Sample::of(grown(size, targets::relative))],
    },
    Family {
        title: "shared label",
        about: "knots with a label of one name each, diverted to by its short and by its full name; accepted",
        sizes: SIZES,
        limit: TIMES,
        make: |size| vec![Sample::of(grown(size, targets::shared_label))],
    },
    Family {
        title: "dotted globals",
        about: "globals with two dots, diverted to by what follows either; accepted",
        sizes: SIZES,
        limit: TIMES,
        make: |size| vec![Sample::of(grown(size, targets::dotted_globals))],
    },
    Family {
        title: "long prefixes",
        about: "globals of 250 bytes, alike but for the last two bytes, each diverted to; accepted",
        sizes: SIZES,
        limit: TIMES,
        make: |size| vec![Sample::of(grown(size, sets::long_prefixes))],
    },
    Family {
        title: "full set of globals",
        about: "globals of three bytes in nearly the whole file, the last of them diverted to, and parameters of other names; accepted",
        sizes: SIZES,
        limit: SECONDS,
        make: |size| vec![Sample::of(grown(size, sets::full_globals))],
    },
    Family {
        title: "full set of labels",
        about: "a knot of labels of three bytes, the last of them diverted to, and temps of other names; accepted",
        sizes: SIZES,
        limit: SECONDS,
        make: |size| vec![Sample::of(grown(size, sets::full_labels))],
    },
    Family {
        title: "collisions",
        about: "globals of different names with one hash, that of this check, each diverted to; accepted",
        sizes: SIZES,
        limit: SECONDS,
        make: |size| vec![Sample::of(grown(size, sets::collisions))],
    },
    Family {
        title: "everything broken",
        about: "in the root and in every knot a temp has the name of a label and a divert leads nowhere: breach 7",
        sizes: SIZES,
        limit: TIMES,
        make: |size| vec![Sample::of(grown(size, bodies::all_broken))],
    },
];
