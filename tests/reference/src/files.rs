//! The recorded files: what a record holds, how its answers are made, and what the file covers.

pub mod erased;
pub mod gains;

use crate::{
    FRAME, LSFS, MEMORY, NOWHERE, PAST, ROW, SHEET, STATE, SUBFRAME, SUBFRAMES, ZEROS, at, draw,
    frame,
    model::{self, Fault, Trace, step},
    mr74::stages,
    part,
    random::Random,
    record, rows,
};

/// Numbers under one name; a `long` number is 32 bits wide and takes two words, the low one first.
pub struct Field {
    pub name: &'static str,
    pub numbers: usize,
    pub long: bool,
}

impl Field {
    pub fn words(&self) -> usize {
        if self.long {
            2 * self.numbers
        } else {
            self.numbers
        }
    }
}

const fn words(name: &'static str, numbers: usize) -> Field {
    Field {
        name,
        numbers,
        long: false,
    }
}

const fn long(name: &'static str) -> Field {
    Field {
        name,
        numbers: 1,
        long: true,
    }
}

/// What a file has to show at least once.
pub enum Kind {
    One(&'static str),
    /// Every one of these numbers.
    Each(&'static str, Vec<i16>),
}

pub struct File {
    pub name: &'static str,
    pub seed: u64,
    pub inputs: &'static [Field],
    pub answers: &'static [Field],
    /// Draws the inputs of every record.
    pub draw: fn(&File, &mut Random) -> Vec<Vec<i16>>,
    /// The reference's answers to the inputs of one record.
    pub answer: fn(&[i16]) -> Vec<i16>,
    /// The model's answers to them, and what it saw. Where there is no published counterpart, the
    /// same answers once more.
    pub model: fn(&mut Trace, &[i16]) -> Vec<i16>,
    pub kinds: fn() -> Vec<Kind>,
    /// Whether the answers are the published code's, and the model's answers its own.
    pub published: bool,
    /// Faults that at least one record gives away.
    pub faults: &'static [Fault],
}

impl File {
    pub fn input_words(&self) -> usize {
        self.inputs.iter().map(Field::words).sum()
    }

    pub fn record_words(&self) -> usize {
        self.input_words() + self.answers.iter().map(Field::words).sum::<usize>()
    }

    /// The numbers of a record that have this name.
    fn numbers<'a>(&self, record: &'a [i16], name: &str) -> Option<&'a [i16]> {
        let mut fields = self.inputs.iter().chain(self.answers);
        let place = fields.clone().position(|field| field.name == name)?;
        let from = fields.by_ref().take(place).map(Field::words).sum::<usize>();
        Some(&record[from..from + fields.next()?.words()])
    }

    /// Whether the second record goes on from the state, and from the energies where there are any,
    /// that the first leaves.
    pub fn is_chained(&self, pair: &[Vec<i16>]) -> bool {
        let [before, after] = pair else { return false };
        let goes_on = |left, taken| self.numbers(before, left) == self.numbers(after, taken);
        goes_on("next state", "state") && goes_on("energies after", "energies")
    }

    /// The whole file.
    pub fn bytes(&self) -> Vec<u8> {
        let mut random = Random::new(self.seed);
        let mut bytes = Vec::new();
        for mut record in (self.draw)(self, &mut random) {
            assert_eq!(record.len(), self.input_words(), "{}: inputs", self.name);
            let answer = (self.answer)(&record);
            record.extend(answer);
            assert_eq!(record.len(), self.record_words(), "{}: answers", self.name);
            bytes.extend(record.iter().flat_map(|word| word.to_le_bytes()));
        }
        bytes
    }

    /// The table of its fields, in Markdown.
    pub fn layout(&self) -> String {
        let length = self.record_words();
        let mut text = format!(
            "### {}\n\nSeed {}; {length} words a record.\n\n| words | meaning | |\n|---|---|---|\n",
            self.name, self.seed
        );
        let mut at = 0;
        for (fields, side) in [(self.inputs, "input"), (self.answers, "answer")] {
            for field in fields {
                let (first, last) = (at, at + field.words() - 1);
                at = last + 1;
                let place = if first == last {
                    first.to_string()
                } else {
                    format!("{first}..{last}")
                };
                let wide = if field.long { ", 32 bits" } else { "" };
                text += &format!("| {place} | {}{wide} | {side} |\n", field.name);
            }
        }
        text + "\n"
    }

    /// A file's records, where its length is a whole number of them.
    pub fn records(&self, bytes: &[u8]) -> Option<Vec<Vec<i16>>> {
        let length = 2 * self.record_words();
        if !bytes.len().is_multiple_of(length) {
            return None;
        }
        let record = |bytes: &[u8]| {
            let (pairs, _) = bytes.as_chunks();
            pairs.iter().map(|&pair| i16::from_le_bytes(pair)).collect()
        };
        Some(bytes.chunks(length).map(record).collect())
    }
}

/// The tables of the files, as `crates/replay/data/README.md` has them.
pub fn layout() -> String {
    FILES.iter().map(File::layout).collect()
}

pub fn find(name: &str) -> Option<&'static File> {
    FILES.iter().find(|file| file.name == name)
}

pub fn from_long(value: i32) -> [i16; 2] {
    [value as i16, (value >> 16) as i16]
}

pub fn to_long(numbers: &[i16]) -> i32 {
    i32::from(numbers[1]) << 16 | i32::from(numbers[0] as u16)
}

/// The lags before a relative index, and the lags of the prediction, that are recorded.
pub const PREVIOUS: [i16; 14] = [19, 20, 24, 25, 26, 40, 57, 85, 110, 138, 139, 140, 143, 144];
pub const LAGS: [i16; 10] = [19, 20, 21, 39, 40, 41, 49, 50, 85, 143];

/// Words of the sheet in a refused record: longer sheets than 182 fit.
pub const SHEET_AREA: usize = 184;
/// Bytes of the record in `record_read.bin`.
pub const BYTE_AREA: usize = 452;

pub static FILES: [File; 28] = [
    File {
        name: "lsp.bin",
        seed: 101,
        inputs: &[words("LSF", LSFS)],
        answers: &[words("LSP", LSFS)],
        draw: draw::lsp,
        answer: |input| {
            stages::lsf_to_lsp(&part(input, 0))
                .expect("every frequency is inside 0..=16384")
                .to_vec()
        },
        model: |trace, input| {
            let rising = input.windows(2).all(|pair| pair[0] <= pair[1]);
            trace.mark_if(rising, "frequencies in order");
            trace.mark_if(!rising, "frequencies out of order");
            input.iter().map(|&lsf| model::lsp(trace, lsf)).collect()
        },
        kinds: || {
            let mut kinds = ones(&[
                "frequencies in order",
                "frequencies out of order",
                "frequency 0",
                "frequency 16383",
                "frequency 16384",
            ]);
            kinds.push(Kind::Each("table interval", (0..64).collect()));
            kinds
        },
        published: true,
        faults: &[Fault::LspTowardZero],
    },
    File {
        name: "coefficient.bin",
        seed: 102,
        inputs: &[long("value")],
        answers: &[words("coefficient", 1)],
        draw: draw::coefficient,
        answer: |input| vec![stages::rounded_coefficient(to_long(input))],
        model: |trace, input| {
            let value = to_long(input);
            trace.mark_if(value < 0, "negative value");
            trace.mark_if(value & 4096 != 0, "rounded up");
            trace.mark_if(value & 4096 == 0, "rounded down");
            trace.mark_if(value == i32::MAX, "value 2147483647");
            trace.mark_if(value == i32::MIN, "value -2147483648");
            vec![model::coefficient(trace, i64::from(value))]
        },
        kinds: || {
            ones(&[
                "negative value",
                "rounded up",
                "rounded down",
                "coefficient wraps at 16 bits",
                "value 2147483647",
                "value -2147483648",
            ])
        },
        published: true,
        faults: &[Fault::CoefficientTowardZero, Fault::CoefficientClamped],
    },
    File {
        name: "convert.bin",
        seed: 103,
        inputs: &[words("LSP", LSFS)],
        answers: &[words("row", ROW)],
        draw: draw::convert,
        answer: |input| stages::convert(&part(input, 0)).to_vec(),
        model: |trace, input| {
            mark_spectrum(trace, input);
            model::convert(trace, &part(input, 0)).to_vec()
        },
        kinds: || {
            ones(&[
                "LSPs falling",
                "LSPs not falling",
                "LSP -32768",
                "LSP 32767",
                "coefficient wraps at 16 bits",
                "polynomial: doubled product clamped",
                "polynomial: difference clamped",
                "row: sum clamped",
                "row: last sum clamped",
            ])
        },
        published: true,
        faults: &[
            Fault::PolynomialUnclamped,
            Fault::CoefficientTowardZero,
            Fault::CoefficientClamped,
        ],
    },
    File {
        name: "interpolate.bin",
        seed: 104,
        inputs: &[words("old LSP", LSFS), words("new LSP", LSFS)],
        answers: &[words("rows", ROW * SUBFRAMES)],
        draw: draw::interpolate,
        answer: |input| {
            let rows = stages::interpolate(&part(input, 0), &part(input, LSFS));
            rows.as_flattened().to_vec()
        },
        model: |trace, input| {
            let (old, new) = input.split_at(LSFS);
            mark_spectrum(trace, new);
            trace.mark_if(old == new, "old and new the same");
            let rows = model::interpolate(trace, &part(old, 0), &part(new, 0));
            rows.as_flattened().to_vec()
        },
        kinds: || {
            ones(&[
                "LSPs falling",
                "LSPs not falling",
                "LSP -32768",
                "LSP 32767",
                "old and new the same",
                "coefficient wraps at 16 bits",
                "polynomial: doubled product clamped",
                "polynomial: difference clamped",
                "row: sum clamped",
                "row: last sum clamped",
            ])
        },
        published: true,
        faults: &[Fault::BlendTowardZero, Fault::CoefficientClamped],
    },
    File {
        name: "lag.bin",
        seed: 105,
        inputs: &[
            words("1 where relative, 0 where absolute", 1),
            words("index", 1),
            words("previous lag (0 where absolute)", 1),
        ],
        answers: &[words("lag", 1), words("thirds", 1)],
        draw: draw::lag,
        answer: |input| {
            let index = input[1] as u8;
            let (samples, thirds) = if input[0] == 0 {
                stages::from_absolute(index)
            } else {
                stages::from_relative(index, input[2]).expect("the index is inside 0..=31")
            };
            vec![samples, thirds]
        },
        model: |trace, input| {
            let (samples, thirds) = if input[0] == 0 {
                model::lag_absolute(trace, input[1])
            } else {
                trace.number("relative index after a lag", 32 * input[2] + input[1]);
                model::lag_relative(trace, input[1], input[2])
            };
            vec![samples, thirds]
        },
        kinds: || {
            let mut kinds = ones(&["minimum lag raised to 20", "minimum lag lowered to 134"]);
            kinds.push(Kind::Each("absolute index", (0..256).collect()));
            let after = PREVIOUS
                .iter()
                .flat_map(|lag| (0..32).map(move |index| 32 * lag + index));
            kinds.push(Kind::Each("relative index after a lag", after.collect()));
            kinds
        },
        published: true,
        faults: &[Fault::LagPlainThird, Fault::LagMinimum],
    },
    File {
        name: "predict.bin",
        seed: 106,
        inputs: &[words("past", PAST), words("lag", 1), words("thirds", 1)],
        answers: &[words("samples", SUBFRAME)],
        draw: draw::predict,
        answer: |input| {
            let lag = (input[PAST], input[PAST + 1]);
            stages::predict(&part(input, 0), lag).to_vec()
        },
        model: |trace, input| {
            let lag = (input[PAST], input[PAST + 1]);
            trace.number("lag and third", 3 * lag.0 + lag.1 + 1);
            mark_extremes(trace, &input[..PAST]);
            model::predict(trace, &part(input, 0), lag).to_vec()
        },
        kinds: || {
            let mut kinds = ones(&[
                "ordinary",
                "-32768 and 32767",
                "prediction: sum clamped",
                "prediction: rounding clamped",
                "prediction reads its own samples",
            ]);
            let mut lags: Vec<i16> = LAGS
                .iter()
                .flat_map(|lag| (0..3).map(move |third| 3 * lag + third))
                .collect();
            lags.push(3 * 144);
            kinds.push(Kind::Each("lag and third", lags));
            kinds
        },
        published: true,
        faults: &[Fault::PredictionUnclamped, Fault::PredictionPastOnly],
    },
    File {
        name: "energy.bin",
        seed: 107,
        inputs: &[words("samples", SUBFRAME)],
        answers: &[long("energy")],
        draw: draw::energy,
        answer: |input| from_long(stages::energy(&part(input, 0))).to_vec(),
        model: |trace, input| {
            mark_extremes(trace, input);
            trace.mark_if(input.iter().all(|&sample| sample == 0), "silence");
            from_long(model::energy(trace, &part(input, 0)) as i32).to_vec()
        },
        kinds: || {
            ones(&[
                "ordinary",
                "-32768 and 32767",
                "silence",
                "energy: sum above 0 and below 16",
                "energy: sum 2147483646",
                "energy: started again",
                "energy: second sum clamped",
            ])
        },
        published: true,
        faults: &[Fault::EnergyTowardZero, Fault::EnergyNotRestarted],
    },
    File {
        name: "inverse_sqrt.bin",
        seed: 108,
        inputs: &[long("value")],
        answers: &[long("inverse root")],
        draw: draw::inverse_sqrt,
        answer: |input| from_long(stages::inverse_sqrt(to_long(input))).to_vec(),
        model: |trace, input| {
            let value = to_long(input);
            trace.mark_if(value == 0, "zero");
            trace.mark_if(value < 0, "negative");
            if value > 0 {
                let bits = value.ilog2();
                let normalised = value << (30 - bits) >> (1 - bits % 2);
                trace.number("table index", (normalised >> 25) as i16 - 16);
                for (nearby, kind) in [
                    (value, "power of two"),
                    (value.wrapping_sub(1), "power of two plus 1"),
                    (value.wrapping_add(1), "power of two less 1"),
                ] {
                    if nearby.count_ones() == 1 {
                        trace.number(kind, nearby.trailing_zeros() as i16);
                    }
                }
            }
            from_long(model::inverse_sqrt(i64::from(value)) as i32).to_vec()
        },
        kinds: || {
            let mut kinds = ones(&["zero", "negative"]);
            kinds.push(Kind::Each("table index", (0..48).collect()));
            kinds.push(Kind::Each("power of two", (0..31).collect()));
            kinds.push(Kind::Each("power of two plus 1", (0..31).collect()));
            kinds.push(Kind::Each("power of two less 1", (1..32).collect()));
            kinds
        },
        published: true,
        faults: &[],
    },
    File {
        name: "match_energy.bin",
        seed: 109,
        inputs: &[words("input", SUBFRAME), words("output", SUBFRAME)],
        answers: &[words("output after", SUBFRAME)],
        draw: draw::match_energy,
        answer: |input| stages::match_energy(&part(input, 0), &part(input, SUBFRAME)).to_vec(),
        model: |trace, input| {
            mark_extremes(trace, input);
            model::match_energy(trace, &part(input, 0), &part(input, SUBFRAME)).to_vec()
        },
        kinds: || {
            let mut kinds = ones(&["ordinary", "-32768 and 32767"]);
            kinds.extend(ones(&GAIN_KINDS));
            kinds
        },
        published: true,
        faults: &GAIN_FAULTS,
    },
    File {
        name: "gain_control.bin",
        seed: 110,
        inputs: &[
            words("smoothed gain", 1),
            words("input", SUBFRAME),
            words("output", SUBFRAME),
        ],
        answers: &[
            words("output after", SUBFRAME),
            words("smoothed gain after", 1),
        ],
        draw: draw::gain_control,
        answer: |input| {
            let (after, gain) =
                stages::gain_control(input[0], &part(input, 1), &part(input, 1 + SUBFRAME));
            let mut answer = after.to_vec();
            answer.push(gain);
            answer
        },
        model: |trace, input| {
            mark_extremes(trace, &input[1..]);
            trace.mark_if(input[0] == 0, "smoothed gain 0");
            trace.mark_if(input[0] == 32767, "smoothed gain 32767");
            let (after, gain) =
                model::gain_control(trace, input[0], &part(input, 1), &part(input, 1 + SUBFRAME));
            let mut answer = after.to_vec();
            answer.push(gain);
            answer
        },
        kinds: || {
            let mut kinds = ones(&[
                "ordinary",
                "-32768 and 32767",
                "smoothed gain 0",
                "smoothed gain 32767",
                "smoothed gain set to 0",
            ]);
            kinds.extend(ones(&GAIN_KINDS));
            kinds
        },
        published: true,
        faults: &[
            Fault::EnergyTowardZero,
            Fault::EnergyNotRestarted,
            Fault::GainTowardZero,
            Fault::SmoothingTowardZero,
            Fault::GainKept,
        ],
    },
    File {
        name: "synthesis.bin",
        seed: 111,
        inputs: &[
            words("row", ROW),
            words("history", LSFS),
            words("excitation", SUBFRAME),
        ],
        answers: &[
            words("samples", SUBFRAME),
            words("place", 1),
            words("history after", LSFS),
        ],
        draw: draw::synthesis,
        answer: |input| {
            let row = part(input, 0);
            let history = part(input, ROW);
            let excitation = part(input, ROW + LSFS);
            let preview = stages::preview(&row, &history, &excitation);
            let filter = stages::filter(&row, &history, &excitation);
            assert_eq!(preview.samples, filter.samples);
            assert_eq!(preview.place, filter.place);
            assert_eq!(preview.history, history);
            let mut answer = filter.samples.to_vec();
            answer.push(preview.place);
            answer.extend(filter.history);
            answer
        },
        model: |trace, input| {
            let excitation = part(input, ROW + LSFS);
            let output = model::synthesis(trace, &part(input, 0), &part(input, ROW), &excitation);
            let only = match output.steps() {
                0 => "no overflow",
                step::FIRST => "only the first product clamped",
                step::TAP => "only a tap's product clamped",
                step::DIFFERENCE => "only a difference clamped",
                step::TIMES_8 => "only times 8 clamped",
                step::ROUNDING => "only plus 32768 clamped",
                _ => "several steps clamped",
            };
            trace.mark(only);
            let clamped = output.steps.iter().filter(|&&steps| steps != 0).count();
            trace.mark_if(output.returned(), "clamped and back into range");
            trace.mark_if(
                clamped == 1 && output.steps[0] != 0,
                "only sample 0 clamped",
            );
            trace.mark_if(
                clamped == 1 && output.steps[39] != 0,
                "only sample 39 clamped",
            );
            trace.mark_if(input[0] == 4096, "row begins with 4096");
            trace.mark_if(input[0] != 4096, "row begins otherwise");
            let place = output.place(trace);
            trace.number("place", place);
            let mut answer = output.samples.to_vec();
            answer.push(place);
            answer.extend(&output.samples[SUBFRAME - LSFS..]);
            answer
        },
        kinds: || {
            let mut kinds = ones(&[
                "row begins with 4096",
                "row begins otherwise",
                "no overflow",
                "only the first product clamped",
                "only a tap's product clamped",
                "only a difference clamped",
                "only times 8 clamped",
                "only plus 32768 clamped",
                "several steps clamped",
                "clamped and back into range",
                "only sample 0 clamped",
                "only sample 39 clamped",
            ]);
            kinds.push(Kind::Each("place", vec![0, 1, 2, 3, 4, 5, 6, 7, 39, 40]));
            kinds
        },
        published: true,
        faults: &[
            Fault::SynthesisTowardZero,
            Fault::OverflowByLastSteps,
            Fault::PlaceByLastSteps,
            Fault::PlaceOfLastClamp,
            Fault::PlaceOneLate,
        ],
    },
    File {
        name: "postfilter.bin",
        seed: 112,
        inputs: &[
            words("memory (fields 175..=196 of the state)", MEMORY),
            words("samples", FRAME),
            words("rows", ROW * SUBFRAMES),
        ],
        answers: &[words("samples after", FRAME), words("memory after", MEMORY)],
        draw: draw::postfilter,
        answer: |input| {
            let samples = part(input, MEMORY);
            let rows = rows(&input[MEMORY + FRAME..]);
            let (after, memory) = stages::postfilter(&part(input, 0), &samples, &rows);
            let mut answer = after.to_vec();
            answer.extend(memory);
            answer
        },
        model: |trace, input| {
            let samples = &input[MEMORY..MEMORY + FRAME];
            mark_extremes(trace, samples);
            let rows = rows(&input[MEMORY + FRAME..]);
            let (mut answer, memory) = model::postfilter(trace, &input[..MEMORY], samples, &rows);
            trace.mark_if(answer.iter().all(|&sample| sample == 0), "silence");
            answer.extend(memory);
            answer
        },
        kinds: || {
            let mut kinds = ones(&["ordinary", "-32768 and 32767", "silence"]);
            kinds.extend(ones(&POSTFILTER_KINDS));
            kinds
        },
        published: true,
        faults: &POSTFILTER_FAULTS,
    },
    File {
        name: "frame_kept.bin",
        seed: 113,
        inputs: &FRAME_INPUTS,
        answers: &FRAME_ANSWERS,
        draw: draw::frame_kept,
        answer: frame_answer,
        model: frame_model,
        kinds: || {
            let mut kinds = frame_kinds();
            kinds.push(Kind::Each("place", KEPT_PLACES.to_vec()));
            kinds.push(Kind::One("LSF gaps kept"));
            kinds
        },
        published: true,
        faults: &FRAME_FAULTS,
    },
    File {
        name: "frame_extreme.bin",
        seed: 119,
        inputs: &FRAME_INPUTS,
        answers: &FRAME_ANSWERS,
        draw: draw::frame_extreme,
        answer: frame_answer,
        model: frame_model,
        kinds: || {
            let mut kinds = frame_kinds();
            kinds.push(Kind::Each("place", (0..=NOWHERE).collect()));
            kinds.extend(ones(&[
                "LSF gaps kept",
                "first LSF 205",
                "gap of 205",
                "previous LSPs not falling",
                "previous LSP -32768",
                "previous LSP 32767",
                "polynomial: doubled product clamped",
            ]));
            kinds.extend(ones(&ROW_KINDS));
            kinds
        },
        published: true,
        faults: &FRAME_FAULTS,
    },
    File {
        name: "refused.bin",
        seed: 115,
        inputs: &[
            words("numbers in the sheet", 1),
            words("samples in the lent output", 1),
            words("sheet, zeros after its end", SHEET_AREA),
            words("state", STATE),
        ],
        answers: &[words("refusal", 1), words("place of the refusal", 1)],
        draw: draw::refused,
        answer: |input| {
            let sheet = &input[2..2 + input[0] as usize];
            let state = part(input, 2 + SHEET_AREA);
            let mut out: Vec<i16> = (0..input[1]).collect();
            let answer = frame::frame(sheet, &state, &mut out);
            assert!(answer.refusal != 0 && answer.state == state);
            assert!(out.into_iter().eq(0..input[1]));
            assert_eq!(answer.places, [NOWHERE; SUBFRAMES]);
            assert_eq!(answer.rows, [[0; ROW]; SUBFRAMES]);
            vec![answer.refusal, answer.place]
        },
        model: |trace, input| {
            let sheet = &input[2..2 + input[0] as usize];
            let mut out = vec![0; input[1] as usize];
            let answer = frame::frame(sheet, &part(input, 2 + SHEET_AREA), &mut out);
            draw::FRAME_CALLS.mark(trace, input, (answer.refusal, answer.place));
            if answer.refusal == 4 {
                trace.number("refusal 4: place", answer.place);
            }
            vec![answer.refusal, answer.place]
        },
        kinds: || {
            let mut kinds = refused_kinds(&draw::FRAME_CALLS);
            kinds.extend([
                Kind::Each("refusal 1: length", vec![0, 1, 171, 178, 181, 183, 184]),
                Kind::Each("refusal 4: place", (0..8).collect()),
            ]);
            kinds.extend(ones(&BROKEN_KINDS));
            kinds.push(Kind::One("first LSF 0"));
            kinds
        },
        published: false,
        faults: &[],
    },
    File {
        name: "record_read.bin",
        seed: 116,
        inputs: &[
            words("bytes", 1),
            words(
                "the bytes, two a word, zeros after their end",
                BYTE_AREA / 2,
            ),
        ],
        answers: &[
            words("refusal, 0 where accepted", 1),
            words("place of the refusal", 1),
            words("bytes in the note", 1),
            words("state", STATE),
        ],
        draw: draw::records::record_read,
        answer: |input| {
            let bytes = packed(input);
            let read = record::read(&bytes);
            assert!(bytes.starts_with(read.note));
            let mut answer = vec![read.refusal, read.place, read.note.len() as i16];
            answer.extend(read.state);
            answer
        },
        model: |trace, input| {
            let bytes = packed(input);
            let read = record::read(&bytes);
            trace.number("refusal", read.refusal);
            mark_state_refusal(trace, (read.refusal, read.place));
            if let Some(trailer) = bytes.last_chunk::<8>() {
                let version = i16::from(trailer[2]);
                match read.refusal {
                    0 => trace.number("version read", version),
                    14 => trace.number("version of another distance or count", version),
                    15 => trace.number("version of a short body", version),
                    _ => {}
                }
            }
            if read.refusal == 0 {
                trace.number("bytes in the note", read.note.len() as i16);
                trace.number("accepted sharpening", read.state[at::SHARPENING]);
                trace.number("accepted smoothed gain", read.state[at::GAIN]);
                trace.number("accepted last lag", read.state[at::LAST_LAG]);
                trace.number("accepted mark", read.state[at::ERASED]);
            }
            let mut answer = vec![read.refusal, read.place, read.note.len() as i16];
            answer.extend(read.state);
            answer
        },
        kinds: || {
            let mut kinds = vec![
                Kind::Each("refusal", vec![0, 11, 12, 13, 14, 15, 16, 17, 18, 19]),
                Kind::Each("version read", vec![1, 2]),
                Kind::Each("version of another distance or count", vec![1, 2]),
                Kind::Each("version of a short body", vec![1, 2]),
                Kind::Each("bytes in the note", vec![0, 1, 2, 7, 8, 18]),
                Kind::Each("accepted sharpening", vec![0, 13017]),
                Kind::Each("accepted smoothed gain", vec![0, 32767]),
                Kind::Each("accepted last lag", vec![19, 40, 144]),
                Kind::Each("accepted mark", vec![0, 1]),
            ];
            kinds.push(state_kind());
            kinds
        },
        published: false,
        faults: &[],
    },
    File {
        name: "record_write.bin",
        seed: 117,
        inputs: &[words("bytes in the lent output", 1), words("state", STATE)],
        answers: &[
            words("refusal, 0 where written", 1),
            words("place of the refusal", 1),
            words(
                "the record, two bytes a word; zeros where refused",
                record::RECORD / 2,
            ),
        ],
        draw: draw::records::record_write,
        answer: |input| {
            let mut out = vec![0xA5; input[0] as usize];
            let (refusal, place) = record::write(&part(input, 1), &mut out);
            let mut answer = vec![refusal, place];
            if refusal == 0 {
                let (pairs, _) = out.as_chunks();
                answer.extend(pairs.iter().map(|&pair| i16::from_le_bytes(pair)));
            } else {
                assert!(out.iter().all(|&byte| byte == 0xA5));
                answer.extend([0; record::RECORD / 2]);
            }
            answer
        },
        model: |trace, input| {
            let mut out = vec![0; input[0] as usize];
            let (refusal, place) = record::write(&part(input, 1), &mut out);
            trace.number("refusal", refusal);
            mark_state_refusal(trace, (refusal, place));
            trace.number("lent bytes", input[0]);
            let mut answer = vec![refusal, place];
            let (pairs, _) = out.as_chunks();
            answer.extend(pairs.iter().map(|&pair| i16::from_le_bytes(pair)));
            answer.resize(2 + record::RECORD / 2, 0);
            answer
        },
        kinds: || {
            vec![
                Kind::Each("refusal", vec![0, 5, 16, 17, 18, 19]),
                Kind::Each("lent bytes", vec![0, 1, 402, 433, 434, 435]),
                state_kind(),
            ]
        },
        published: false,
        faults: &[],
    },
    gains::DECODE,
    gains::REFUSED,
    gains::FRAME_INDEXED,
    gains::REFUSED_INDEXED,
    erased::PITCH_CONCEAL,
    erased::CONCEAL_ENERGY,
    erased::GAIN_CONCEAL,
    erased::GAIN_UPDATE,
    erased::FRAME_ERASED,
    erased::FRAME_MIXED,
    erased::REFUSED_ERASED,
];

/// Every place of refusal 18.
fn state_kind() -> Kind {
    Kind::Each("refusal 18: place", (198..=212).collect())
}

fn mark_state_refusal(trace: &mut Trace, (refusal, place): frame::Refusal) {
    match refusal {
        18 => trace.number("refusal 18: place", place),
        19 => assert_eq!(place, 197),
        _ => {}
    }
}

impl draw::Calls {
    /// What a refused call of a kind of sheet shows.
    fn mark(&self, trace: &mut Trace, input: &[i16], (refusal, place): frame::Refusal) {
        trace.number("refusal", refusal);
        match refusal {
            1 => trace.number("refusal 1: length", input[0]),
            2 => trace.number("refusal 2: place", place),
            3 => trace.number("refusal 3: place", place),
            5 => trace.number("refusal 5: length", input[1]),
            6 => {
                trace.number("refusal 6: place", place);
                mark_gaps(trace, &input[self.sheet..self.sheet + LSFS]);
            }
            _ => mark_state_refusal(trace, (refusal, place)),
        }
        // Which later rows of the order the call meets too.
        for later in self.refusals(input) {
            if later != refusal {
                trace.number("refusal before a later one", 100 * refusal + later);
            }
        }
    }
}

/// What the refused calls of each kind of sheet show.
fn refused_kinds(calls: &draw::Calls) -> Vec<Kind> {
    let order = calls.order;
    let pairs = (0..order.len())
        .flat_map(|first| (first + 1..order.len()).map(move |later| (first, later)))
        .map(|(first, later)| 100 * order[first] + order[later]);
    let mut kinds = vec![
        Kind::Each("refusal", order.to_vec()),
        Kind::Each("refusal 2: place", (0..10).collect()),
        Kind::Each("refusal 5: length", vec![0, 1, 159, 161, 162]),
        Kind::Each("refusal 6: place", (0..10).collect()),
        state_kind(),
        Kind::Each("refusal before a later one", pairs.collect()),
    ];
    if order.contains(&3) {
        kinds.push(Kind::Each("refusal 3: place", (0..4).collect()));
    }
    kinds
}

/// Not a file: frames whose LSFs break the gap, searched for what a decoder that does not test it
/// would do with them. Each is a refused call of `refused.bin`.
pub static BROKEN: File = File {
    name: "broken",
    seed: 114,
    inputs: &FRAME_INPUTS,
    answers: &FRAME_ANSWERS,
    draw: draw::frame_broken,
    answer: decoded_answer,
    model: frame_model,
    kinds: || {
        let mut kinds = frame_kinds();
        kinds.extend(ones(&BROKEN_KINDS));
        kinds.push(Kind::One("frequency 0"));
        kinds.extend(ones(&ROW_KINDS));
        kinds
    },
    published: true,
    faults: &FRAME_FAULTS,
};

const ROW_KINDS: [&str; 5] = [
    "frequency 16383",
    "frequency 16384",
    "polynomial: difference clamped",
    "row: sum clamped",
    "row: last sum clamped",
];

const BROKEN_KINDS: [&str; 4] = [
    "LSF gaps broken",
    "LSFs out of order",
    "gap of 204",
    "first LSF 204",
];

static FRAME_INPUTS: [Field; 2] = [words("sheet", SHEET), words("state", STATE)];
static FRAME_ANSWERS: [Field; 4] = [
    words("samples", FRAME),
    words("places", SUBFRAMES),
    words("rows", ROW * SUBFRAMES),
    words("next state", STATE),
];

/// What the source's chain gives, with no check before it.
fn decoded_answer(input: &[i16]) -> Vec<i16> {
    let decoded = stages::decode(&part(input, 0), &part(input, SHEET));
    let mut words = decoded.samples.to_vec();
    words.extend(decoded.places);
    words.extend(decoded.rows.as_flattened());
    words.extend(decoded.state);
    words
}

/// The frame call's answer: it accepts, and decodes.
fn frame_answer(input: &[i16]) -> Vec<i16> {
    let (sheet, state) = input.split_at(SHEET);
    let answer = frame::frame(sheet, &part(state, 0), &mut [0; FRAME]);
    assert_eq!(answer.refusal, 0);
    decoded_answer(input)
}

fn frame_model(trace: &mut Trace, input: &[i16]) -> Vec<i16> {
    let (sheet, state) = input.split_at(SHEET);
    mark_gaps(trace, &sheet[..LSFS]);
    let previous = &state[..LSFS];
    let falling = previous.windows(2).all(|pair| pair[0] > pair[1]);
    trace.mark_if(!falling, "previous LSPs not falling");
    trace.mark_if(previous.contains(&-32768), "previous LSP -32768");
    trace.mark_if(previous.contains(&32767), "previous LSP 32767");
    trace.mark_if(state == ZEROS, "state of zeros");
    mark_extremes(trace, &state[at::PAST..at::SHARPENING]);
    model::frame::frame(trace, sheet, state)
}

fn mark_gaps(trace: &mut Trace, lsf: &[i16]) {
    let kept = draw::first_close(lsf).is_none();
    let gap = |wanted: i16| lsf.windows(2).any(|pair| pair[1] - pair[0] == wanted);
    let falls = lsf.windows(2).any(|pair| pair[0] > pair[1]);
    trace.mark_if(kept, "LSF gaps kept");
    trace.mark_if(!kept, "LSF gaps broken");
    trace.mark_if(falls, "LSFs out of order");
    trace.mark_if(gap(204), "gap of 204");
    trace.mark_if(gap(205), "gap of 205");
    trace.mark_if(lsf[0] == 0, "first LSF 0");
    trace.mark_if(lsf[0] == 204, "first LSF 204");
    trace.mark_if(lsf[0] == 205, "first LSF 205");
}

fn ones(names: &[&'static str]) -> Vec<Kind> {
    names.iter().map(|&name| Kind::One(name)).collect()
}

fn mark_spectrum(trace: &mut Trace, lsp: &[i16]) {
    let falling = lsp.windows(2).all(|pair| pair[0] > pair[1]);
    trace.mark_if(falling, "LSPs falling");
    trace.mark_if(!falling, "LSPs not falling");
    trace.mark_if(lsp.contains(&-32768), "LSP -32768");
    trace.mark_if(lsp.contains(&32767), "LSP 32767");
}

fn mark_extremes(trace: &mut Trace, numbers: &[i16]) {
    let extreme = |number: &i16| [-32768, 32767].contains(number);
    trace.mark_if(!numbers.iter().any(extreme), "ordinary");
    let both = numbers.contains(&-32768) && numbers.contains(&32767);
    trace.mark_if(both, "-32768 and 32767");
}

fn packed(input: &[i16]) -> Vec<u8> {
    let bytes = input[1..].iter().flat_map(|word| word.to_le_bytes());
    bytes.take(input[0] as usize).collect()
}

const GAIN_KINDS: [&str; 10] = [
    "gain: zero input energy",
    "gain: zero output energy",
    "gain: above 1",
    "gain: below 1",
    "gain: 32767",
    "gain: ratio held to 32767",
    "gain: root of 0",
    "gain: ratio clamped to 32 bits",
    "gain: scaled sample clamped",
    "energy: started again",
];

static GAIN_FAULTS: [Fault; 3] = [
    Fault::EnergyTowardZero,
    Fault::EnergyNotRestarted,
    Fault::GainTowardZero,
];

const POSTFILTER_KINDS: [&str; 8] = [
    "tilt 0",
    "tilt above 0",
    "residual: sum clamped",
    "residual: times 8 clamped",
    "residual: tilt clamped",
    "second synthesis clamped",
    "smoothed gain set to 0",
    "energy: started again",
];

static POSTFILTER_FAULTS: [Fault; 4] = [
    Fault::TiltTowardZero,
    Fault::TiltFromChanged,
    Fault::SmoothingTowardZero,
    Fault::GainKept,
];

fn frame_kinds() -> Vec<Kind> {
    let mut kinds = ones(&[
        "state of zeros",
        "ordinary",
        "-32768 and 32767",
        "silence",
        "samples all negative",
        "peak 32760 or more",
        "sample -32768",
        "coefficient wraps at 16 bits",
        "minimum lag raised to 20",
        "minimum lag lowered to 134",
        "prediction reads its own samples",
        "prediction: sum clamped",
        "prediction: rounding clamped",
        "innovation sharpened",
        "sharpened innovation clamped",
        "sharpening 13017",
        "pitch gain 0",
        "pitch gain 8192",
        "pitch gain 8193",
        "pitch gain 32767",
        "feedback: doubling clamped",
        "feedback: rounding clamped",
        "enhanced",
        "not enhanced",
        "enhanced sample clamped",
        "gain: zero input energy",
        "gain: zero output energy",
        "not retried",
        "first pass: a tap's product clamped",
        "first pass: only differences clamped",
        "first pass: only times 8 clamped",
        "first pass: only plus 32768 clamped",
        "first pass: back into range",
        "second pass clamped",
        "second pass not clamped",
    ]);
    kinds.extend(ones(&POSTFILTER_KINDS));
    kinds.push(Kind::Each("flags", (0..16).collect()));
    kinds.push(Kind::Each("lag", vec![19, 20, 39, 40, 49, 50, 143, 144]));
    kinds
}

/// The places that the ordinary frames show: both ends, none, and what was met between.
const KEPT_PLACES: [i16; 25] = [
    0, 1, 2, 3, 4, 5, 6, 8, 9, 10, 12, 14, 15, 17, 18, 21, 23, 28, 31, 32, 34, 37, 38, 39, 40,
];

static FRAME_FAULTS: [Fault; 39] = [
    Fault::LspTowardZero,
    Fault::BlendTowardZero,
    Fault::CoefficientTowardZero,
    Fault::CoefficientClamped,
    Fault::LagPlainThird,
    Fault::LagMinimum,
    Fault::PredictionUnclamped,
    Fault::PredictionPastOnly,
    Fault::SharpeningNotFed,
    Fault::SharpeningOfThisGain,
    Fault::SharpeningTowardZero,
    Fault::SharpeningWraps,
    Fault::FeedbackTowardZero,
    Fault::EnhancedFrom8192,
    Fault::EnhancementUnmatched,
    Fault::EnergyTowardZero,
    Fault::EnergyNotRestarted,
    Fault::GainTowardZero,
    Fault::SynthesisTowardZero,
    Fault::OverflowByLastSteps,
    Fault::PlaceByLastSteps,
    Fault::PlaceOfLastClamp,
    Fault::PlaceOneLate,
    Fault::PlaceFromSecondPass,
    Fault::PlaceOnFeedback,
    Fault::QuarterEnhanced,
    Fault::QuarterTowardZero,
    Fault::PastNotQuartered,
    Fault::FeedbackNotQuartered,
    Fault::SecondHistory,
    Fault::TiltTowardZero,
    Fault::GainKept,
    Fault::PastNotHeld,
    Fault::FiveNotHeld,
    Fault::CodeHeld,
    Fault::NewestLeaves,
    Fault::GoodAlwaysHeld,
    Fault::LastGoodHeld,
    Fault::LastLagKept,
];
