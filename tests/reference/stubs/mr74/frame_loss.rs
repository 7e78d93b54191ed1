//! Stub: whether the frame before was erased, and the attenuation stage of an erased frame, are set
//! from outside. A frame leaves whether it was erased itself.
use super::gain_concealment::AttenuationStage;

#[derive(Debug, Clone, Copy, PartialEq, Eq)]
pub enum SpeechQuality {
    Good,
    Erased,
}

pub struct Loss {
    pub previous_frame_erased: bool,
    pub attenuation: AttenuationStage,
}

#[derive(Debug, Clone, Default, PartialEq, Eq)]
pub struct SpeechLossState {
    pub erased: bool,
    pub stage: u8,
}

impl SpeechLossState {
    pub fn advance(&mut self, quality: SpeechQuality) -> Loss {
        let previous_frame_erased = self.erased;
        self.erased = quality == SpeechQuality::Erased;
        Loss {
            previous_frame_erased,
            attenuation: AttenuationStage::try_new(self.stage).expect("the stage was tested"),
        }
    }

    pub fn resume_noise(&mut self, _muted: bool) {}

    pub fn after_initial_good_speech(&mut self) {}
}
