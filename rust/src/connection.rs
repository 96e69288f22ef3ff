//! Forward Open and Forward Close: connections, asked for and given back.
use crate::answer::{answer, filled, part, written};
use crate::error::{Error, Result};
use crate::limits::MAX_PATH;
use crate::sys::{self, OpenNumbers};

/// Which Forward Open: the large one has wider connection parameters.
#[derive(Clone, Copy, Debug, PartialEq, Eq, Hash)]
pub enum Form {
    /// Parameters of 16 bits, connection sizes up to 511.
    Small,
    /// Parameters of 32 bits, connection sizes up to 65,535.
    Large,
}

impl Form {
    #[inline]
    pub(crate) fn is_large(self) -> bool {
        self == Form::Large
    }
}

/// A connection's priority.
#[derive(Clone, Copy, Debug, PartialEq, Eq, Hash)]
#[repr(u8)]
pub enum Priority {
    /// Low.
    Low = 0,
    /// High.
    High = 1,
    /// Scheduled.
    Scheduled = 2,
    /// Urgent.
    Urgent = 3,
}

/// A connection's type. The fourth code is reserved.
#[derive(Clone, Copy, Debug, PartialEq, Eq, Hash)]
#[repr(u8)]
pub enum ConnectionType {
    /// None.
    Null = 0,
    /// One to many.
    Multicast = 1,
    /// Point to point.
    PointToPoint = 2,
}

/// What makes a connection send.
#[derive(Clone, Copy, Debug, PartialEq, Eq, Hash)]
#[repr(u8)]
pub enum TriggerType {
    /// The clock.
    Cyclic = 0,
    /// A value that changed.
    ChangeOfState = 1,
    /// The application.
    Application = 2,
}

/// A transport's class.
#[derive(Clone, Copy, Debug, PartialEq, Eq, Hash)]
#[repr(u8)]
pub enum TransportClass {
    /// Class 0.
    Class0 = 0,
    /// Class 1.
    Class1 = 1,
    /// Class 2.
    Class2 = 2,
    /// Class 3.
    Class3 = 3,
    /// Class 4.
    Class4 = 4,
    /// Class 5.
    Class5 = 5,
    /// Class 6.
    Class6 = 6,
}

/// Which end of a transport the target is.
#[derive(Clone, Copy, Debug, PartialEq, Eq, Hash)]
pub enum Direction {
    /// A client.
    Client,
    /// A server.
    Server,
}

/// The connection parameters of one direction.
///
/// ```
/// use barkcushion::{ConnectionType, Error, Form, Parameters, Priority};
/// let mut p = Parameters {
///     redundant_owner: false,
///     connection_type: ConnectionType::PointToPoint,
///     variable_length: false,
///     priority: Priority::Scheduled,
///     connection_size: 511,
/// };
/// assert_eq!(p.encode(Form::Small), Ok(0x49FF));
/// assert_eq!(Parameters::decode(Form::Small, 0x49FF), Ok(p));
/// p.connection_size = 512;
/// assert_eq!(p.encode(Form::Small), Err(Error::Limit)); // not masked to 0
/// assert_eq!(p.encode(Form::Large), Ok(0x4800_0200));
/// ```
#[derive(Clone, Copy, Debug, PartialEq, Eq, Hash)]
pub struct Parameters {
    /// Whether several may own the connection.
    pub redundant_owner: bool,
    /// The connection's type.
    pub connection_type: ConnectionType,
    /// Whether the size is the most, not the exact one.
    pub variable_length: bool,
    /// The connection's priority.
    pub priority: Priority,
    /// Bytes of a packet.
    pub connection_size: u16,
}

impl Parameters {
    /// The word that a Forward Open has. Refused: `Limit` a size over 511 in a small one.
    #[inline]
    pub fn encode(&self, form: Form) -> Result<u32> {
        let (connection_type, priority) = (self.connection_type as u8, self.priority as u8);
        let word = sys::encode_parameters(
            form.is_large(),
            self.redundant_owner,
            connection_type,
            self.variable_length,
            priority,
            self.connection_size,
        );
        answer(word).map(|word| word as u32)
    }

    /// The parameters in a word. Refused: `Form` a reserved bit, `Code` type 3.
    #[inline]
    pub fn decode(form: Form, word: u32) -> Result<Self> {
        let f = filled(|f| sys::decode_parameters(form.is_large(), word, f))?;
        Ok(Parameters {
            redundant_owner: f[0] != 0,
            connection_type: match f[1] {
                0 => ConnectionType::Null,
                1 => ConnectionType::Multicast,
                _ => ConnectionType::PointToPoint,
            },
            variable_length: f[2] != 0,
            priority: match f[3] {
                0 => Priority::Low,
                1 => Priority::High,
                2 => Priority::Scheduled,
                _ => Priority::Urgent,
            },
            connection_size: f[4] as u16,
        })
    }
}

/// Direction, trigger and class of a transport.
///
/// ```
/// use barkcushion::{Direction, Error, Transport, TransportClass, TriggerType};
/// let t = Transport {
///     direction: Direction::Server,
///     trigger: TriggerType::Application,
///     class: TransportClass::Class3,
/// };
/// assert_eq!(t.encode(), Ok(0xA3));
/// assert_eq!(Transport::decode(0xA3), Ok(t));
/// assert_eq!(Transport::decode(0xA7), Err(Error::Code)); // there is no class 7
/// ```
#[derive(Clone, Copy, Debug, PartialEq, Eq, Hash)]
pub struct Transport {
    /// Which end the target is.
    pub direction: Direction,
    /// What makes it send.
    pub trigger: TriggerType,
    /// Its class.
    pub class: TransportClass,
}

impl Transport {
    /// The byte that a Forward Open has. No value of this type is refused.
    #[inline]
    pub fn encode(&self) -> Result<u8> {
        let server = self.direction == Direction::Server;
        answer(sys::encode_transport(server, self.trigger as u8, self.class as u8)).map(|byte| byte as u8)
    }

    /// The transport in a byte. Refused: `Code` trigger 3 to 7, class 7 to 15.
    #[inline]
    pub fn decode(byte: u8) -> Result<Self> {
        let f = filled(|f| sys::decode_transport(byte, f))?;
        Ok(Transport {
            direction: if f[0] != 0 { Direction::Server } else { Direction::Client },
            trigger: match f[1] {
                0 => TriggerType::Cyclic,
                1 => TriggerType::ChangeOfState,
                _ => TriggerType::Application,
            },
            class: match f[2] {
                0 => TransportClass::Class0,
                1 => TransportClass::Class1,
                2 => TransportClass::Class2,
                3 => TransportClass::Class3,
                4 => TransportClass::Class4,
                5 => TransportClass::Class5,
                _ => TransportClass::Class6,
            },
        })
    }
}

/// The data of a Forward Open. `o_t` is from originator to target, `t_o` back.
///
/// ```
/// use barkcushion::{Form, ForwardOpen};
/// let mut out = [0; 64];
/// // The backplane, then the message router.
/// let open = ForwardOpen::new(Form::Small, 7, &[1, 0, 0x20, 2, 0x24, 1]);
/// let bytes = open.write(&mut out)?;
/// assert_eq!(bytes.len(), 42);
/// assert_eq!(bytes[26..28], [0xF8, 0x45]); // parameters
/// assert_eq!(bytes[34], 0xA3); // class and trigger
/// assert_eq!(ForwardOpen::read(Form::Small, bytes)?, open);
/// # Ok::<(), barkcushion::Error>(())
/// ```
#[derive(Clone, Copy, Debug, PartialEq, Eq, Hash)]
pub struct ForwardOpen<'a> {
    /// Small or large.
    pub form: Form,
    /// Tick time. The upper four bits are reserved: written as they stand, refused (`Form`) when read.
    pub priority_tick_time: u8,
    /// Ticks until the time is over.
    pub timeout_ticks: u8,
    /// The connection to the target.
    pub o_t_connection_id: u32,
    /// The connection to the originator.
    pub t_o_connection_id: u32,
    /// The caller's number for the connection.
    pub connection_serial_number: u16,
    /// The originator's vendor.
    pub vendor_id: u16,
    /// The originator's serial number.
    pub originator_serial_number: u32,
    /// How often a packet may fail to come, as a code.
    pub timeout_multiplier: u8,
    /// Microseconds between packets to the target.
    pub o_t_rpi: u32,
    /// Parameters to the target.
    pub o_t: Parameters,
    /// Microseconds between packets to the originator.
    pub t_o_rpi: u32,
    /// Parameters to the originator.
    pub t_o: Parameters,
    /// Direction, trigger and class.
    pub transport: Transport,
    /// The path's bytes, at most 254.
    pub path: &'a [u8],
}

impl<'a> ForwardOpen<'a> {
    /// The default record, with this serial number and this path. Set what differs:
    ///
    /// ```
    /// use barkcushion::{Form, ForwardOpen};
    /// let open = ForwardOpen { o_t_rpi: 10_000, ..ForwardOpen::new(Form::Large, 7, &[1, 0, 0x20, 2, 0x24, 1]) };
    /// let mut out = [0; 64];
    /// let bytes = open.write(&mut out)?;
    /// assert_eq!(bytes.len(), 46);
    /// assert_eq!(bytes[26..30], [0xF8, 1, 0, 0x44]); // parameters
    /// # Ok::<(), barkcushion::Error>(())
    /// ```
    #[inline]
    pub fn new(form: Form, connection_serial_number: u16, path: &'a [u8]) -> Self {
        let default = filled(|f| sys::default_forward_open(form.is_large(), connection_serial_number, f))
            .and_then(|f| ForwardOpen::of_fields(form, &f, path));
        default.expect("the default record is never refused")
    }

    #[inline]
    fn of_fields(form: Form, f: &[usize; 15], path: &'a [u8]) -> Result<Self> {
        Ok(ForwardOpen {
            form,
            priority_tick_time: f[0] as u8,
            timeout_ticks: f[1] as u8,
            o_t_connection_id: f[2] as u32,
            t_o_connection_id: f[3] as u32,
            connection_serial_number: f[4] as u16,
            vendor_id: f[5] as u16,
            originator_serial_number: f[6] as u32,
            timeout_multiplier: f[7] as u8,
            o_t_rpi: f[8] as u32,
            o_t: Parameters::decode(form, f[9] as u32)?,
            t_o_rpi: f[10] as u32,
            t_o: Parameters::decode(form, f[11] as u32)?,
            transport: Transport::decode(f[12] as u8)?,
            path,
        })
    }

    /// Its numbers, with the parameters' words and the transport's byte.
    #[inline]
    fn numbers(&self, words: [u32; 2], transport: u8) -> OpenNumbers {
        OpenNumbers {
            large_open: self.form.is_large(),
            priority_tick_time: self.priority_tick_time,
            timeout_ticks: self.timeout_ticks,
            o_t_connection_id: self.o_t_connection_id,
            t_o_connection_id: self.t_o_connection_id,
            connection_serial_number: self.connection_serial_number,
            vendor_id: self.vendor_id,
            originator_serial_number: self.originator_serial_number,
            timeout_multiplier: self.timeout_multiplier,
            o_t_rpi: self.o_t_rpi,
            o_t_params: words[0],
            t_o_rpi: self.t_o_rpi,
            t_o_params: words[1],
            transport,
        }
    }

    /// Writes the record at the front of `out`, and answers the written bytes.
    /// Refused: `Limit` a path over 254 bytes, the path's own, `Limit` a size over 511 in a small one, `Room`.
    #[inline]
    pub fn write<'o>(&self, out: &'o mut [u8]) -> Result<&'o [u8]> {
        match (self.o_t.encode(self.form), self.t_o.encode(self.form)) {
            (Ok(o_t), Ok(t_o)) => {
                let numbers = self.numbers([o_t, t_o], self.transport.encode()?);
                written(out, |out| sys::write_forward_open(&numbers, self.path, out))
            }
            (Err(e), _) | (_, Err(e)) => {
                // The path is judged before the parameters: its refusal goes first.
                if self.path.len() > MAX_PATH {
                    return Err(Error::Limit);
                }
                answer(sys::check_path(self.path)).and(Err(e))
            }
        }
    }

    /// Reads a record of the form that the caller names. Refused: `Limit`, `Short`, `Form`, `Code`, the path's own,
    /// `Leftover`.
    #[inline]
    pub fn read(form: Form, s: &'a [u8]) -> Result<Self> {
        let f = filled(|f| sys::read_forward_open(form.is_large(), s, f))?;
        ForwardOpen::of_fields(form, &f, part(s, f[13], f[14]))
    }
}

/// The data of a Forward Close.
///
/// ```
/// use barkcushion::ForwardClose;
/// let close = ForwardClose {
///     priority_ticks: 3,
///     timeout_ticks: 250,
///     connection_serial_number: 7,
///     vendor_id: 0xFF,
///     originator_serial_number: 0xFFFF_FFFF,
///     path: &[0x20, 2, 0x24, 1],
/// };
/// let mut out = [0; 16];
/// let bytes = close.write(&mut out)?;
/// assert_eq!(bytes, [3, 250, 7, 0, 255, 0, 255, 255, 255, 255, 2, 0, 0x20, 2, 0x24, 1]);
/// assert_eq!(ForwardClose::read(bytes)?, close);
/// # Ok::<(), barkcushion::Error>(())
/// ```
#[derive(Clone, Copy, Debug, PartialEq, Eq, Hash)]
pub struct ForwardClose<'a> {
    /// Tick time. The upper four bits are reserved: written as they stand, refused (`Form`) when read.
    pub priority_ticks: u8,
    /// Ticks until the time is over.
    pub timeout_ticks: u8,
    /// The number that the Forward Open gave the connection.
    pub connection_serial_number: u16,
    /// The originator's vendor.
    pub vendor_id: u16,
    /// The originator's serial number.
    pub originator_serial_number: u32,
    /// The path's bytes, at most 254.
    pub path: &'a [u8],
}

impl<'a> ForwardClose<'a> {
    /// Writes the record at the front of `out`, and answers the written bytes.
    /// Refused: `Limit` a path over 254 bytes, the path's own, `Room`.
    #[inline]
    pub fn write<'o>(&self, out: &'o mut [u8]) -> Result<&'o [u8]> {
        written(out, |out| {
            sys::write_forward_close(
                self.priority_ticks,
                self.timeout_ticks,
                self.connection_serial_number,
                self.vendor_id,
                self.originator_serial_number,
                self.path,
                out,
            )
        })
    }

    /// Reads the record. Refused: `Limit`, `Short`, `Form`, the path's own, `Leftover`.
    #[inline]
    pub fn read(s: &'a [u8]) -> Result<Self> {
        let f = filled(|f| sys::read_forward_close(s, f))?;
        Ok(ForwardClose {
            priority_ticks: f[0] as u8,
            timeout_ticks: f[1] as u8,
            connection_serial_number: f[2] as u16,
            vendor_id: f[3] as u16,
            originator_serial_number: f[4] as u32,
            path: part(s, f[5], f[6]),
        })
    }
}
