//! Takes the published Rust from `shared/docs/src` beside the repository, or from the checkout that
//! `REFERENCE_SRC` names, applies the patches listed here and leaves the result in `OUT_DIR`, from
//! where `lib.rs` includes it. Nothing published is kept in the repository but the anchors of the
//! patches.

use std::{env, fs, path::Path, process};

/// The published tree, from the repository's root, and the folder of its files.
const SOURCE: &str = "../shared/docs/src";
const FOLDER: &str = "crates/bts136/src/codec";

/// What is written: a tree for each way of decoding, which differ in their patches alone.
/// `reference` decodes frame sheets and erased sheets. `indexed` has innovation and gains from the
/// source's indices. `lent` decodes index sheets: innovation from the sheet, gains from their indices,
/// by lent tables.
const ALL: &[&str] = &["reference", "indexed", "lent"];
const FRAME_SHEETS: &[&str] = &["reference"];
const INDEX_SHEETS: &[&str] = &["lent"];
const SHEETS: &[&str] = &["reference", "lent"];

/// The published files that are compiled.
const FILES: [&str; 16] = [
    "mr74.rs",
    "mr74/adaptive.rs",
    "mr74/codebook.rs",
    "mr74/decoder.rs",
    "mr74/energy.rs",
    "mr74/excitation.rs",
    "mr74/gain.rs",
    "mr74/gain_concealment.rs",
    "mr74/logarithm.rs",
    "mr74/lpc.rs",
    "mr74/missing_parameters.rs",
    "mr74/pitch.rs",
    "mr74/postfilter.rs",
    "mr74/postprocess.rs",
    "mr74/spectral.rs",
    "mr74/synthesis.rs",
];

/// Modules that were not given and of which something is named on the way: ours, from `stubs`.
const STUBS: [&str; 3] = [
    "mr74/frame_loss.rs",
    "mr74/sid.rs",
    "mr74/spectral/tables.rs",
];

/// Declared modules of which nothing is used: empty files. `codebook/search`, `encoder` and
/// `encoder_filtering` were given, but belong to the encoder; the others were not given.
const EMPTY: [&str; 24] = [
    "mr74/analysis_spectrum.rs",
    "mr74/autocorrelation.rs",
    "mr74/codebook/search.rs",
    "mr74/comfort_noise.rs",
    "mr74/dtx.rs",
    "mr74/encoder.rs",
    "mr74/encoder_analysis.rs",
    "mr74/encoder_filtering.rs",
    "mr74/encoder_stability.rs",
    "mr74/gain/quantization.rs",
    "mr74/levinson.rs",
    "mr74/noise_history.rs",
    "mr74/noise_level.rs",
    "mr74/noise_pcm.rs",
    "mr74/noise_receiver.rs",
    "mr74/noise_spectrum.rs",
    "mr74/noise_synthesis.rs",
    "mr74/pitch/open_loop.rs",
    "mr74/pitch/search.rs",
    "mr74/prediction_gain.rs",
    "mr74/preprocess.rs",
    "mr74/receiver.rs",
    "mr74/sid_interpolation.rs",
    "mr74/spectral/quantization.rs",
];

struct Patch {
    trees: &'static [&'static str],
    file: &'static str,
    /// Occurs exactly once in the published file.
    old: &'static str,
    new: &'static str,
    why: &'static str,
}

const SEEN: &str = "visibility";
const LENT: &str = "an entry of the lent table in place of the constant's";

const PATCHES: [Patch; 39] = [
    // The sheet in place of the tables.
    Patch {
        trees: ALL,
        file: "mr74/lpc.rs",
        old: "self.spectral.decode(parameters)",
        new: "super::sheet::spectrum()",
        why: "the sheet's LSFs in place of the LSF quantiser's",
    },
    Patch {
        trees: ALL,
        file: "mr74/lpc.rs",
        old: "self.spectral.conceal()",
        new: "super::sheet::spectrum()",
        why: "the erased sheet's LSFs in place of the concealed ones",
    },
    Patch {
        trees: SHEETS,
        file: "mr74/codebook.rs",
        old: "samples_q13,",
        new: "samples_q13: super::sheet::innovation(pulse_positions),",
        why: "the sheet's innovation in place of the codebook's",
    },
    Patch {
        trees: FRAME_SHEETS,
        file: "mr74/gain.rs",
        old: "let [pitch, correction, energy] =",
        new: "return Ok(super::sheet::gains(index)); let [pitch, correction, energy] =",
        why: "the sheet's gains in place of the gain table's",
    },
    // The lent tables in place of the constants.
    Patch {
        trees: INDEX_SHEETS,
        file: "mr74/logarithm.rs",
        old: "(LOG2_TABLE[index] << WORD_SHIFT)",
        new: "(super::tables::log(index) << WORD_SHIFT)",
        why: LENT,
    },
    Patch {
        trees: INDEX_SHEETS,
        file: "mr74/logarithm.rs",
        old: "(LOG2_TABLE[index] - LOG2_TABLE[index + 1])",
        new: "(super::tables::log(index) - super::tables::log(index + 1))",
        why: LENT,
    },
    Patch {
        trees: INDEX_SHEETS,
        file: "mr74/logarithm.rs",
        old: "(POW2_TABLE[index] << WORD_SHIFT)",
        new: "(super::tables::pow(index) << WORD_SHIFT)",
        why: LENT,
    },
    Patch {
        trees: INDEX_SHEETS,
        file: "mr74/logarithm.rs",
        old: "(POW2_TABLE[index] - POW2_TABLE[index + 1])",
        new: "(super::tables::pow(index) - super::tables::pow(index + 1))",
        why: LENT,
    },
    // The places of the synthesis: two calls that are handed copies, and give nothing back.
    Patch {
        trees: ALL,
        file: "mr74/synthesis.rs",
        old: ">> WORD_SHIFT) as i16;",
        new: ">> WORD_SHIFT) as i16; super::places::note(sample, overflowed);",
        why: "after each sample of a pass, whether a step has clamped so far",
    },
    Patch {
        trees: ALL,
        file: "mr74/decoder.rs",
        old: ".overflowed;",
        new: ".overflowed; super::places::keep(index);",
        why: "the place of a subframe's first pass, before its second",
    },
    // The state, set and read from outside.
    Patch {
        trees: ALL,
        file: "mr74/decoder.rs",
        old: "lpc: LpcDecoder,",
        new: "pub(super) lpc: LpcDecoder,",
        why: SEEN,
    },
    Patch {
        trees: ALL,
        file: "mr74/decoder.rs",
        old: "excitation: ExcitationDecoder,",
        new: "pub(super) excitation: ExcitationDecoder,",
        why: SEEN,
    },
    Patch {
        trees: ALL,
        file: "mr74/lpc.rs",
        old: "previous_lsp_q15: [i16;",
        new: "pub(super) previous_lsp_q15: [i16;",
        why: SEEN,
    },
    Patch {
        trees: ALL,
        file: "mr74/excitation.rs",
        old: "history_q0: [i16;",
        new: "pub(super) history_q0: [i16;",
        why: SEEN,
    },
    Patch {
        trees: ALL,
        file: "mr74/excitation.rs",
        old: "sharpening_q14: i16,",
        new: "pub(super) sharpening_q14: i16,",
        why: SEEN,
    },
    Patch {
        trees: ALL,
        file: "mr74/synthesis.rs",
        old: "history_q0: [i16; LPC_ORDER],",
        new: "pub(super) history_q0: [i16; LPC_ORDER],",
        why: SEEN,
    },
    Patch {
        trees: ALL,
        file: "mr74/postfilter.rs",
        old: "input_history: [i16;",
        new: "pub(super) input_history: [i16;",
        why: SEEN,
    },
    Patch {
        trees: ALL,
        file: "mr74/postfilter.rs",
        old: "previous_residual: i16,",
        new: "pub(super) previous_residual: i16,",
        why: SEEN,
    },
    Patch {
        trees: ALL,
        file: "mr74/postfilter.rs",
        old: "synthesis: SynthesisFilter,",
        new: "pub(super) synthesis: SynthesisFilter,",
        why: SEEN,
    },
    Patch {
        trees: ALL,
        file: "mr74/postfilter.rs",
        old: "gain: GainControl,",
        new: "pub(super) gain: GainControl,",
        why: SEEN,
    },
    Patch {
        trees: ALL,
        file: "mr74/energy.rs",
        old: "previous_gain: i16,",
        new: "pub(super) previous_gain: i16,",
        why: SEEN,
    },
    // The concealment's part of the state, and a frame that is good or erased.
    Patch {
        trees: ALL,
        file: "mr74/excitation.rs",
        old: "pitch: pitch::PitchDecoder,",
        new: "pub(super) pitch: pitch::PitchDecoder,",
        why: SEEN,
    },
    Patch {
        trees: ALL,
        file: "mr74/excitation.rs",
        old: "concealment: GainConcealment,",
        new: "pub(super) concealment: GainConcealment,",
        why: SEEN,
    },
    Patch {
        trees: ALL,
        file: "mr74/excitation.rs",
        old: "loss: SpeechLossState,",
        new: "pub(super) loss: SpeechLossState,",
        why: SEEN,
    },
    Patch {
        trees: ALL,
        file: "mr74/pitch.rs",
        old: "previous: PitchLag,",
        new: "pub(super) previous: PitchLag,",
        why: SEEN,
    },
    Patch {
        trees: ALL,
        file: "mr74/gain_concealment.rs",
        old: "pitch_history: [i16;",
        new: "pub(super) pitch_history: [i16;",
        why: SEEN,
    },
    Patch {
        trees: ALL,
        file: "mr74/gain_concealment.rs",
        old: "code_history: [i16;",
        new: "pub(super) code_history: [i16;",
        why: SEEN,
    },
    Patch {
        trees: ALL,
        file: "mr74/gain_concealment.rs",
        old: "past: Gains,",
        new: "pub(super) past: Gains,",
        why: SEEN,
    },
    Patch {
        trees: ALL,
        file: "mr74/gain_concealment.rs",
        old: "last_good: Gains,",
        new: "pub(super) last_good: Gains,",
        why: SEEN,
    },
    Patch {
        trees: ALL,
        file: "mr74/decoder.rs",
        old: "fn decode_quality(",
        new: "pub(super) fn decode_quality(",
        why: SEEN,
    },
    // The past energies, and the constant tables, which a caller may lend.
    Patch {
        trees: ALL,
        file: "mr74/excitation.rs",
        old: "gains: gain::GainDecoder,",
        new: "pub(super) gains: gain::GainDecoder,",
        why: SEEN,
    },
    Patch {
        trees: ALL,
        file: "mr74/gain.rs",
        old: "energies_q10: [i16;",
        new: "pub(super) energies_q10: [i16;",
        why: SEEN,
    },
    Patch {
        trees: INDEX_SHEETS,
        file: "mr74/logarithm.rs",
        old: "const LOG2_TABLE: [i32;",
        new: "pub(super) const LOG2_TABLE: [i32;",
        why: SEEN,
    },
    Patch {
        trees: INDEX_SHEETS,
        file: "mr74/logarithm.rs",
        old: "const POW2_TABLE: [i32;",
        new: "pub(super) const POW2_TABLE: [i32;",
        why: SEEN,
    },
    // Stages that are private to their file.
    Patch {
        trees: ALL,
        file: "mr74/lpc.rs",
        old: "fn interpolate(",
        new: "pub(super) fn interpolate(",
        why: SEEN,
    },
    Patch {
        trees: ALL,
        file: "mr74/lpc.rs",
        old: "fn rounded_coefficient(",
        new: "pub(super) fn rounded_coefficient(",
        why: SEEN,
    },
    Patch {
        trees: ALL,
        file: "mr74/energy.rs",
        old: "fn energy(",
        new: "pub(super) fn energy(",
        why: SEEN,
    },
    Patch {
        trees: ALL,
        file: "mr74/pitch.rs",
        old: "samples: u16,",
        new: "pub(super) samples: u16,",
        why: SEEN,
    },
    Patch {
        trees: ALL,
        file: "mr74/pitch.rs",
        old: "fraction: Fraction,",
        new: "pub(super) fraction: Fraction,",
        why: SEEN,
    },
];

fn fail(message: String) -> ! {
    eprintln!("reference: {message}");
    process::exit(1);
}

fn read(path: &Path) -> String {
    println!("cargo::rerun-if-changed={}", path.display());
    match fs::read_to_string(path) {
        Ok(text) => text,
        Err(error) => fail(format!(
            "cannot read {}: {error}; the Rust is chrismoos/136-bts at commit 7c60b63bf4, in \
             {SOURCE} or in the checkout that REFERENCE_SRC names",
            path.display()
        )),
    }
}

fn write(path: &Path, text: &str) {
    let folder = path.parent().expect("every file lies in a folder");
    if let Err(error) = fs::create_dir_all(folder).and_then(|()| fs::write(path, text)) {
        fail(format!("cannot write {}: {error}", path.display()));
    }
}

fn patched(tree: &str, file: &str, published: String) -> String {
    let mut text = published.clone();
    let concerned = |patch: &&Patch| patch.file == file && patch.trees.contains(&tree);
    for patch in PATCHES.iter().filter(concerned) {
        for found in [&published, &text] {
            let count = found.matches(patch.old).count();
            if count != 1 {
                fail(format!(
                    "{file}: patch `{}` ({}): the text occurs {count} times and should occur once",
                    patch.old, patch.why
                ));
            }
        }
        text = text.replacen(patch.old, patch.new, 1);
    }
    text
}

fn main() {
    let here = env::var("CARGO_MANIFEST_DIR").expect("cargo names the package's folder");
    let out = env::var("OUT_DIR").expect("cargo names the output folder");
    let source = env::var("REFERENCE_SRC").unwrap_or_default();
    let source = if source.is_empty() { SOURCE } else { &source };
    let here = Path::new(&here);
    let published = here.join("../..").join(source).join(FOLDER);
    println!("cargo::rerun-if-changed=build.rs");
    println!("cargo::rerun-if-env-changed=REFERENCE_SRC");
    for patch in &PATCHES {
        if !FILES.contains(&patch.file) {
            fail(format!("a patch names {}, which is not read", patch.file));
        }
    }
    for tree in ALL {
        let out = Path::new(&out).join(tree);
        for file in FILES {
            let text = patched(tree, file, read(&published.join(file)));
            // An included file's modules are looked for beside it.
            let place = if file == "mr74.rs" {
                "mr74/mod.rs"
            } else {
                file
            };
            write(&out.join(place), &text);
        }
        for file in STUBS {
            write(&out.join(file), &read(&here.join("stubs").join(file)));
        }
        for file in EMPTY {
            write(&out.join(file), "");
        }
    }
}
