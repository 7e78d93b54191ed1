//! Erased frames: beside the source's decoder, their refusals, and what holds of every call.

use super::state_of;
use crate::{
    ERASED_SHEET, FRAME, GAIN_FIELDS, INDEX_SHEET, LSF_GAP, LSFS, ROW, STATE, SUBFRAMES, ZEROS, at,
    draw::{self, erased::Chain},
    files::erased::Call,
    frame::{check_state, frame, frame_erased, frame_indexed},
    gain::OPENING,
    indexed::source::{self, Source},
    lent::tables,
    model::{Trace, concealment},
    mr74::erased,
    random::Random,
    values::erased::arrangements,
};

/// Good and erased frames in turns: sheets of the codebook's innovation are decoded as the published
/// decoder decodes the indices, frame sheets and index sheets of the good ones alike.
#[test]
fn losses_stand_for_indices() {
    let mut random = Random::new(79);
    let tables = tables::standard();
    let (mut state, mut energies) = (ZEROS, OPENING);
    let mut source = Source::new(&state);
    let mut held = 0;
    for _ in 0..600 {
        let lsf = draw::kept(&mut random);
        let indices = source::indices(&mut random);
        let mut out = [0; FRAME];
        let (answer, wanted) = if random.once_in(3) {
            let sheet = source::erased_sheet(&lsf, random.word(0, 6), &indices);
            let answer = frame_erased(&sheet, &state, &energies, &mut out);
            (answer, source.erase(&sheet, &indices))
        } else {
            let sheet = source.sheet(&lsf, &indices);
            let mut numbers = sheet[..at::GAINS].to_vec();
            numbers.extend(indices.subframes().map(|index| index.gain_index as i16));
            numbers.extend(&sheet[at::INNOVATION..]);
            assert_eq!(numbers.len(), INDEX_SHEET);
            let lent = (&tables).into();
            let answer = frame_indexed(&numbers, &state, lent, &energies, &mut out);
            let samples = out;
            assert_eq!(frame(&sheet, &state, &mut out), answer.frame);
            assert_eq!(out, samples);
            let last = [sheet[at::INNOVATION - 2], sheet[at::INNOVATION - 1]];
            held += usize::from(answer.frame.state[210..212] != last);
            (answer, source.decode(&sheet, &indices))
        };
        assert_eq!(answer.frame.refusal, 0);
        assert_eq!(out, wanted.samples);
        assert_eq!(answer.frame.places, wanted.places);
        assert_eq!(answer.frame.rows, wanted.rows);
        assert_eq!(answer.frame.state, wanted.state);
        assert_eq!(answer.energies, source.energies());
        (state, energies) = (answer.frame.state, answer.energies);
    }
    assert!(held > 50, "{held} frames were held");
}

#[test]
fn refused_erased_calls_change_nothing() {
    let mut state = state_of(7);
    let mut out = [5; FRAME];
    let mut sheet = [0; ERASED_SHEET];
    for (lsf, number) in sheet[..LSFS].iter_mut().zip(1..) {
        *lsf = LSF_GAP * number;
    }
    let energies = [1, 2, 3, 4];
    let mut refused = |sheet: &[i16], state: &[i16; STATE], room: usize| {
        let out = &mut out[..room];
        let answer = frame_erased(sheet, state, &energies, out);
        assert!(out.iter().all(|&sample| sample == 5));
        assert_eq!(answer.energies, energies);
        assert_eq!(answer.frame.state, *state);
        assert_eq!(answer.frame.places, [40; SUBFRAMES]);
        assert_eq!(answer.frame.rows, [[0; ROW]; SUBFRAMES]);
        (answer.frame.refusal, answer.frame.place)
    };
    state[at::LAST_LAG] = 145;
    assert_eq!(refused(&sheet, &state, FRAME), (19, 197));
    state[at::ERASED] = 2;
    assert_eq!(refused(&sheet, &state, FRAME), (18, 212));
    state[205] = -1;
    assert_eq!(refused(&sheet, &state, FRAME), (18, 205));
    state[at::GAIN] = -1;
    assert_eq!(refused(&sheet, &state, FRAME), (17, 0));
    state[at::SHARPENING] = 13018;
    assert_eq!(refused(&sheet, &state, FRAME), (16, 0));
    sheet[at::STAGE] = 7;
    assert_eq!(refused(&sheet, &state, FRAME), (9, 0));
    sheet[1] = 409;
    assert_eq!(refused(&sheet, &state, FRAME), (6, 1));
    sheet[9] = -1;
    assert_eq!(refused(&sheet, &state, FRAME), (2, 9));
    assert_eq!(refused(&sheet, &state, FRAME - 1), (5, 0));
    assert_eq!(refused(&sheet[1..], &state, FRAME - 1), (1, 0));
    assert_eq!(refused(&[0; INDEX_SHEET], &state, FRAME), (1, 0));
}

/// The third of five in order, for the same numbers in any arrangement: of the source's, by past gains
/// that hold nothing back and stage 0, and of the second decoder's.
#[test]
fn median_is_the_third_of_any_arrangement() {
    let mut random = Random::new(80);
    let mut trace = Trace::default();
    for _ in 0..200 {
        let drawn = draw::erased::gain_fields(&mut random);
        let mut sorted = [0; 5];
        sorted.copy_from_slice(&drawn[..5]);
        sorted.sort_unstable();
        let scaled = ((i32::from(sorted[2]) * 32767) >> 15) as i16;
        for five in arrangements(sorted) {
            assert_eq!(concealment::third(&mut trace, five), sorted[2]);
            let mut fields = [32767; GAIN_FIELDS];
            fields[..5].copy_from_slice(&five);
            fields[5..10].copy_from_slice(&five);
            assert_eq!(erased::conceal(0, &fields).0, [scaled; 2]);
        }
    }
}

/// After any accepted call the state is accepted again, and the newest of each five is the past gain.
/// Concealed gains lie below 32767.
#[test]
fn states_stay_accepted() {
    let mut random = Random::new(81);
    for _ in 0..20 {
        let mut chain = Chain::any(&mut random);
        for _ in 0..40 {
            let record = chain.any_step(&mut random);
            let (answer, _) = Call::of(&record).answer();
            let state = answer.frame.state;
            assert_eq!(answer.frame.refusal, 0);
            assert_eq!(check_state(&state), Ok(()));
            assert_eq!((state[202], state[207]), (state[208], state[209]));
            assert!(state[208] <= 16384 && state[at::SHARPENING] <= 13017);
            assert_eq!(state[at::ERASED], i16::from(record[0] == 2));
        }
    }
    for gain in 0..=32767 {
        let ([pitch, code], _) = erased::conceal(0, &[gain; GAIN_FIELDS]);
        assert!([pitch, code].iter().all(|gain| (0..=32766).contains(gain)));
    }
}
