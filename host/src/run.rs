use crate::{Answer, Record, Register, State, TraceHeader, call::step_due, text::Load};

/// The run of a trace, record by record: from its checkpoint, or else from its start, each record with the serial then due.
///
/// ```
/// use amx::{Answer, Call, Record, Run, State, Trace};
/// let mut trace = Trace::new(State::new());
/// trace.registers_mut()[..2].copy_from_slice(&[3, 0]);
/// trace.registers_mut()[512..514].copy_from_slice(&[2, 0]);
/// trace.push(Record { instruction: 14, generation: 1, operand: 1 << 63 })?;
///
/// let mut run = Run::new(trace.header());
/// assert_eq!(run.take(trace.records()[0]), Some((0, Answer::Done { bytes: 64 })));
/// assert_eq!(run.changed_rows().collect::<Vec<_>>(), [0]);
/// # Ok::<(), amx::TraceFull>(())
/// ```
#[derive(Clone, Debug)]
pub struct Run {
    /// What rows are compared with.
    start: State,
    state: State,
    consumed: usize,
    /// The place of the next record.
    place: usize,
}

impl Run {
    /// Before the first record.
    pub fn new(header: &TraceHeader) -> Self {
        Run { start: header.start().clone(), state: header.state().clone(), consumed: header.consumed(), place: 0 }
    }

    /// Takes the next record: its place, and what its step answers. None where the checkpoint has consumed it.
    #[must_use = "an answer that is dropped hides a refusal or a no-op"]
    pub fn take(&mut self, record: Record) -> Option<(usize, Answer)> {
        let place = self.place;
        self.place += 1;
        (place >= self.consumed).then(|| (place, step_due(&mut self.state, record.into())))
    }

    /// Loads a register, as a text does between steps.
    ///
    /// # Panics
    ///
    /// Where there is no such register, as [`Load::apply`] does.
    pub fn load(&mut self, load: &Load) {
        load.apply(&mut self.state);
    }

    /// Whether the next record is consumed.
    pub fn is_consumed(&self) -> bool {
        self.place < self.consumed
    }

    /// The state as the records so far leave it.
    pub fn state(&self) -> &State {
        &self.state
    }

    /// The same, when the run is over.
    pub fn into_state(self) -> State {
        self.state
    }

    /// The rows of Z that differ from the start (and not from the checkpoint).
    pub fn changed_rows(&self) -> impl Iterator<Item = usize> + use<'_> {
        (0..64).filter(|&row| self.state.row(Register::Z(row)) != self.start.row(Register::Z(row)))
    }
}
