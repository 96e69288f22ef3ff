//! The fields of docs/ANSWERS.md: taken from a case, put into an answer.
use barkcushion::*;

/// What is left of a case. It panics where a field is cut short or `bad`: no case that was answered has one.
pub struct Case<'c>(pub &'c [u8]);

impl<'c> Case<'c> {
    fn take(&mut self, n: usize) -> &'c [u8] {
        let (front, rest) = self.0.split_at(n);
        self.0 = rest;
        front
    }

    fn number<const N: usize>(&mut self) -> [u8; N] {
        self.take(N).try_into().unwrap()
    }

    pub fn u8(&mut self) -> u8 {
        u8::from_le_bytes(self.number())
    }

    pub fn u16(&mut self) -> u16 {
        u16::from_le_bytes(self.number())
    }

    pub fn u32(&mut self) -> u32 {
        u32::from_le_bytes(self.number())
    }

    /// A u64: an index or a length.
    pub fn place(&mut self) -> usize {
        u64::from_le_bytes(self.number()).try_into().unwrap()
    }

    /// A byte that says which of these.
    fn of<T: Copy, const N: usize>(&mut self, all: [T; N]) -> T {
        all[usize::from(self.u8())]
    }

    pub fn flag(&mut self) -> bool {
        self.of([false, true])
    }

    pub fn form(&mut self) -> Form {
        self.of([Form::Small, Form::Large])
    }

    pub fn bytes(&mut self) -> &'c [u8] {
        let n = self.u32();
        self.take(n as usize)
    }

    pub fn room(&mut self) -> usize {
        self.u32() as usize
    }

    /// A LIST, as rows, however many there are.
    pub fn rows(&mut self) -> Vec<u32> {
        let count = self.u16();
        (0..count).flat_map(|_| [self.u8().into(), self.u32(), self.u32(), self.u32()]).collect()
    }

    /// LENGTHS.
    pub fn lengths(&mut self) -> Vec<usize> {
        let count = self.u32();
        (0..count).map(|_| self.place()).collect()
    }

    fn parameters(&mut self) -> Parameters {
        Parameters {
            connection_size: self.u16(),
            variable_length: self.flag(),
            priority: self.of([Priority::Low, Priority::High, Priority::Scheduled, Priority::Urgent]),
            connection_type: self.of([ConnectionType::Null, ConnectionType::Multicast, ConnectionType::PointToPoint]),
            redundant_owner: self.flag(),
        }
    }

    fn transport(&mut self) -> Transport {
        use TransportClass::*;
        Transport {
            direction: self.of([Direction::Client, Direction::Server]),
            trigger: self.of([TriggerType::Cyclic, TriggerType::ChangeOfState, TriggerType::Application]),
            class: self.of([Class0, Class1, Class2, Class3, Class4, Class5, Class6]),
        }
    }

    /// OPEN, still without its path.
    pub fn open(&mut self, form: Form) -> ForwardOpen<'static> {
        ForwardOpen {
            form,
            priority_tick_time: self.u8(),
            timeout_ticks: self.u8(),
            o_t_connection_id: self.u32(),
            t_o_connection_id: self.u32(),
            connection_serial_number: self.u16(),
            vendor_id: self.u16(),
            originator_serial_number: self.u32(),
            timeout_multiplier: self.u8(),
            o_t_rpi: self.u32(),
            o_t: self.parameters(),
            t_o_rpi: self.u32(),
            t_o: self.parameters(),
            transport: self.transport(),
            path: &[],
        }
    }

    /// CLOSE, still without its path.
    pub fn close(&mut self) -> ForwardClose<'static> {
        ForwardClose {
            priority_ticks: self.u8(),
            timeout_ticks: self.u8(),
            connection_serial_number: self.u16(),
            vendor_id: self.u16(),
            originator_serial_number: self.u32(),
            path: &[],
        }
    }

    pub fn status(&mut self) -> Status {
        let (general, has_word, word) = (self.u8(), self.flag(), self.u16());
        Status { general, extended: has_word.then_some(word) }
    }

    /// The end of FAILED.
    pub fn remaining(&mut self) -> Option<u8> {
        let (has, words) = (self.flag(), self.u8());
        has.then_some(words)
    }

    /// STATE.
    pub fn frame_state(&mut self) -> FrameState {
        FrameState { held: self.u32() as usize, length: self.u32() as usize, refused: self.flag() }
    }
}

/// The fields of an accepted answer, behind its 00.
pub struct Fields(pub Vec<u8>);

pub fn accepted() -> Fields {
    Fields(vec![0])
}

impl Fields {
    fn put<const N: usize>(mut self, bytes: [u8; N]) -> Self {
        self.0.extend(bytes);
        self
    }

    pub fn u8(self, n: u8) -> Self {
        self.put([n])
    }

    pub fn u16(self, n: u16) -> Self {
        self.put(n.to_le_bytes())
    }

    pub fn u32(self, n: u32) -> Self {
        self.put(n.to_le_bytes())
    }

    /// A size or a count, a u32.
    pub fn count(self, n: usize) -> Self {
        self.u32(n.try_into().unwrap())
    }

    /// A PART: where in the input these bytes lie, also if there are none.
    pub fn part(self, input: &[u8], part: &[u8]) -> Self {
        let start = (part.as_ptr() as usize).checked_sub(input.as_ptr() as usize).expect("a part of the input");
        assert!(start + part.len() <= input.len(), "a part of the input");
        self.count(start).count(part.len())
    }

    fn parameters(self, p: &Parameters) -> Self {
        let fields = self.u16(p.connection_size).u8(p.variable_length.into()).u8(p.priority as u8);
        fields.u8(p.connection_type as u8).u8(p.redundant_owner.into())
    }

    /// OPEN.
    pub fn open(self, o: &ForwardOpen) -> Self {
        let fields = self.u8(o.priority_tick_time).u8(o.timeout_ticks);
        let fields = fields.u32(o.o_t_connection_id).u32(o.t_o_connection_id);
        let fields = fields.triad(o.connection_serial_number, o.vendor_id, o.originator_serial_number);
        let fields =
            fields.u8(o.timeout_multiplier).u32(o.o_t_rpi).parameters(&o.o_t).u32(o.t_o_rpi).parameters(&o.t_o);
        let t = o.transport;
        fields.u8(t.direction as u8).u8(t.trigger as u8).u8(t.class as u8)
    }

    pub fn triad(self, serial: u16, vendor: u16, originator: u32) -> Self {
        self.u16(serial).u16(vendor).u32(originator)
    }

    pub fn status(self, s: Status) -> Self {
        self.u8(s.general).u8(s.extended.is_some().into()).u16(s.extended.unwrap_or(0))
    }

    /// A failure, from its service on.
    pub fn failure(self, f: &Failure) -> Self {
        let fields = self.u8(f.service).status(f.status).u8(0);
        let fields = fields.triad(f.connection_serial_number, f.vendor_id, f.originator_serial_number);
        fields.u8(f.remaining.is_some().into()).u8(f.remaining.unwrap_or(0))
    }

    /// STATE.
    pub fn frame_state(self, s: FrameState) -> Self {
        self.count(s.held).count(s.length).u8(s.refused.into())
    }
}

/// The answer of a reader or of a size.
pub fn read(fields: Result<Fields>) -> Vec<u8> {
    fields.map_or_else(|e| vec![e.number()], |fields| fields.0)
}

/// The answer of a writer, with the whole lent output. Behind what is lent nothing may change either.
pub fn written(room: usize, write: impl FnOnce(&mut [u8]) -> Result<&[u8]>) -> Vec<u8> {
    let mut memory = vec![0xA5; room + 64];
    let mut answer = read(write(&mut memory[..room]).map(|bytes| accepted().count(bytes.len())));
    let (lent, behind) = memory.split_at(room);
    assert!(behind.iter().all(|b| *b == 0xA5), "changed behind what is lent");
    answer.extend(lent);
    answer
}
