//! Ephemerides as they were broadcast: integers, unscaled; `orbit` gives SI units.

macro_rules! numbers {
    ($($(#[$about:meta])* $name:ident { $($(#[$what:meta])* $field:ident: $kind:ty,)* })*) => {
        $(
            $(#[$about])*
            #[repr(C)]
            #[derive(Clone, Copy, Debug, Default, PartialEq, Eq, Hash)]
            pub struct $name { $($(#[$what])* pub $field: $kind,)* }
        )*
    };
}

numbers! {
    /// When an ephemeris was sent.
    Sent {
        /// 0 where it is not known
        is_known: u32,
        /// s after the start of the week of its toe, -302,400 to 907,199; 0 where it is not known
        second: i32,
    }
    /// The clock of a GPS satellite, of subframe 1 (IS-GPS-200, table 20-I).
    GpsClock {
        /// issue of data, clock: 10 bits
        iodc: u32,
        /// time of the clock's data, in steps of 16 s: 0 to 37,799
        toc: u32,
        /// clock drift rate, 2^-55 s/s^2: 8 bits
        af2: i32,
        /// clock drift, 2^-43 s/s: 16 bits
        af1: i32,
        /// clock bias, 2^-31 s: 22 bits
        af0: i32,
        /// group delay, 2^-31 s: 8 bits
        tgd: i32,
    }
    /// What subframe 1 says beside the clock (IS-GPS-200, 20.3.3.3.1).
    GpsSide {
        /// the codes on L2: 2 bits
        l2_code: u32,
        /// user range accuracy, an index: 4 bits
        ura: u32,
        /// health of the satellite: 6 bits
        health: u32,
        /// whether the P code on L2 bears no data: 1 bit
        l2p: u32,
    }
    /// The first half of the orbit of a GPS satellite, of subframe 2 (IS-GPS-200, table 20-III).
    GpsOrbitA {
        /// issue of data, ephemeris: 8 bits
        iode: u32,
        /// sine correction to the orbit's radius, 2^-5 m: 16 bits
        crs: i32,
        /// correction to the mean motion, 2^-43 semicircles/s: 16 bits
        delta_n: i32,
        /// mean anomaly at toe, 2^-31 semicircles: 32 bits
        m0: i32,
        /// cosine correction to the argument of latitude, 2^-29 rad: 16 bits
        cuc: i32,
        /// eccentricity, 2^-33: 32 bits
        e: u32,
        /// sine correction to the argument of latitude, 2^-29 rad: 16 bits
        cus: i32,
        /// square root of the semi-major axis, 2^-19 m^(1/2): 32 bits
        root_a: u32,
        /// time of the ephemeris, in steps of 16 s: 0 to 37,799
        toe: u32,
    }
    /// The second half of the orbit of a GPS satellite, of subframe 3 (IS-GPS-200, table 20-III).
    GpsOrbitB {
        /// issue of data, ephemeris: 8 bits; that of the first half
        iode: u32,
        /// cosine correction to the inclination, 2^-29 rad: 16 bits
        cic: i32,
        /// longitude of the ascending node at the start of the week, 2^-31 semicircles: 32 bits
        omega0: i32,
        /// sine correction to the inclination, 2^-29 rad: 16 bits
        cis: i32,
        /// inclination at toe, 2^-31 semicircles: 32 bits
        i0: i32,
        /// cosine correction to the orbit's radius, 2^-5 m: 16 bits
        crc: i32,
        /// argument of perigee, 2^-31 semicircles: 32 bits
        omega: i32,
        /// rate of the right ascension, 2^-43 semicircles/s: 24 bits
        omega_dot: i32,
        /// rate of the inclination, 2^-43 semicircles/s: 14 bits
        idot: i32,
    }
    /// An ephemeris of GPS.
    Gps {
        /// 1 to 32
        satellite: u32,
        /// week of toe, counted from 1980-01-06: 1 to 16,382
        toe_week: u32,
        /// when it was sent
        sent: Sent,
        /// its clock
        clock: GpsClock,
        /// what stands beside the clock
        side: GpsSide,
        /// the first half of its orbit
        a: GpsOrbitA,
        /// the second half, of the same issue
        b: GpsOrbitB,
        /// fit interval flag: 1 bit (IS-GPS-200, 20.3.3.4.3.1)
        fit: u32,
    }
    /// The first part of the orbit of a Galileo satellite, of I/NAV word 1 (Galileo OS SIS ICD, 5.1.1).
    GalWord1 {
        /// issue of data: 10 bits
        iodnav: u32,
        /// time of the ephemeris, in steps of 60 s: 0 to 10,079
        toe: u32,
        /// mean anomaly at toe, 2^-31 semicircles: 32 bits
        m0: i32,
        /// eccentricity, 2^-33: 32 bits
        e: u32,
        /// square root of the semi-major axis, 2^-19 m^(1/2): 32 bits
        root_a: u32,
    }
    /// The second part, of I/NAV word 2 (Galileo OS SIS ICD, 5.1.1).
    GalWord2 {
        /// issue of data: 10 bits
        iodnav: u32,
        /// longitude of the ascending node at the start of the week, 2^-31 semicircles: 32 bits
        omega0: i32,
        /// inclination at toe, 2^-31 semicircles: 32 bits
        i0: i32,
        /// argument of perigee, 2^-31 semicircles: 32 bits
        omega: i32,
        /// rate of the inclination, 2^-43 semicircles/s: 14 bits
        idot: i32,
    }
    /// The third part, with the accuracy, of I/NAV word 3 (Galileo OS SIS ICD, 5.1.1 and 5.1.12).
    GalWord3 {
        /// issue of data: 10 bits
        iodnav: u32,
        /// rate of the right ascension, 2^-43 semicircles/s: 24 bits
        omega_dot: i32,
        /// correction to the mean motion, 2^-43 semicircles/s: 16 bits
        delta_n: i32,
        /// cosine correction to the argument of latitude, 2^-29 rad: 16 bits
        cuc: i32,
        /// sine correction to the argument of latitude, 2^-29 rad: 16 bits
        cus: i32,
        /// cosine correction to the orbit's radius, 2^-5 m: 16 bits
        crc: i32,
        /// sine correction to the orbit's radius, 2^-5 m: 16 bits
        crs: i32,
        /// signal in space accuracy, an index: 0 to 125, or 255 for none
        sisa: u32,
    }
    /// The last part, with the clock, of I/NAV word 4 (Galileo OS SIS ICD, 5.1.1 and 5.1.3).
    GalWord4 {
        /// issue of data: 10 bits
        iodnav: u32,
        /// cosine correction to the inclination, 2^-29 rad: 16 bits
        cic: i32,
        /// sine correction to the inclination, 2^-29 rad: 16 bits
        cis: i32,
        /// time of the clock's data, in steps of 60 s: 0 to 10,079
        toc: u32,
        /// clock bias, 2^-34 s: 31 bits
        af0: i32,
        /// clock drift, 2^-46 s/s: 21 bits
        af1: i32,
        /// clock drift rate, 2^-59 s/s^2: 6 bits
        af2: i32,
    }
    /// Group delays and health of a Galileo satellite, of I/NAV word 5 (Galileo OS SIS ICD, 5.1.5 and 5.1.9).
    GalHealth {
        /// group delay between E1 and E5a, 2^-32 s: 10 bits
        bgd_a: i32,
        /// group delay between E1 and E5b, 2^-32 s: 10 bits
        bgd_b: i32,
        /// health of the signal E5b: 2 bits
        hs_e5b: u32,
        /// health of the signal E1-B: 2 bits
        hs_e1b: u32,
        /// whether the data of E5b are without guarantee: 1 bit
        dvs_e5b: u32,
        /// whether the data of E1-B are without guarantee: 1 bit
        dvs_e1b: u32,
    }
    /// An ephemeris of Galileo.
    Gal {
        /// 1 to 36
        satellite: u32,
        /// week of toe, counted from 1980-01-06: 1 to 16,382
        toe_week: u32,
        /// when it was sent
        sent: Sent,
        /// the first part of its orbit
        w1: GalWord1,
        /// the second part, of the same issue
        w2: GalWord2,
        /// the third part, of the same issue
        w3: GalWord3,
        /// the last part and the clock, of the same issue
        w4: GalWord4,
        /// its delays and health
        health: GalHealth,
    }
    /// GPS ionospheric parameters of subframe 4, page 18 (IS-GPS-200, table 20-X), 8 bits each.
    GpsIon {
        /// 2^-30 s
        alpha0: i32,
        /// 2^-27 s/semicircle
        alpha1: i32,
        /// 2^-24 s/semicircle^2
        alpha2: i32,
        /// 2^-24 s/semicircle^3
        alpha3: i32,
        /// 2^11 s
        beta0: i32,
        /// 2^14 s/semicircle
        beta1: i32,
        /// 2^16 s/semicircle^2
        beta2: i32,
        /// 2^16 s/semicircle^3
        beta3: i32,
    }
    /// Galileo ionospheric parameters of I/NAV word type 5 (Galileo OS SIS ICD, 5.1.6).
    GalIon {
        /// effective ionisation level, 1st order, 2^-2 solar flux units: 11 bits
        ai0: u32,
        /// 2nd order, 2^-8 solar flux units/degree: 11 bits
        ai1: i32,
        /// 3rd order, 2^-15 solar flux units/degree^2: 14 bits
        ai2: i32,
        /// disturbance flags of regions 1 to 5; region 1 is the highest of 5 bits
        regions: u32,
    }
}

impl Sent {
    /// The transmission time in seconds after the start of the week of toe, where it is known.
    pub fn second(&self) -> Option<i32> {
        (self.is_known != 0).then_some(self.second)
    }
}

/// Ionospheric parameters with satellite and transmission time.
#[derive(Clone, Copy, Debug, Default, PartialEq, Eq, Hash)]
pub struct Ion<Parameters> {
    /// transmission time as GPS time, s from 1980-01-06
    pub moment: u64,
    /// of the system of the parameters: 1 to 32 (GPS) or 1 to 36 (Galileo)
    pub satellite: u32,
    /// the parameters
    pub parameters: Parameters,
}

/// An ephemeris or ionospheric parameters.
#[derive(Clone, Copy, Debug, PartialEq, Eq, Hash)]
#[allow(clippy::large_enum_variant)]
pub enum Item {
    /// a GPS ephemeris
    Gps(Gps),
    /// a Galileo ephemeris
    Gal(Gal),
    /// GPS ionospheric parameters
    GpsIon(Ion<GpsIon>),
    /// Galileo ionospheric parameters
    GalIon(Ion<GalIon>),
}

/// The content of an LNAV subframe.
#[derive(Clone, Copy, Debug, PartialEq, Eq, Hash)]
pub enum Subframe {
    /// Subframe 1.
    One {
        /// week number modulo 1024
        wn: u32,
        /// transmission time, s of the week; not looked at where it is written
        second: u32,
        /// the clock
        clock: GpsClock,
        /// what stands beside it
        side: GpsSide,
    },
    /// Subframe 2.
    Two {
        /// the first half of the orbit
        a: GpsOrbitA,
        /// fit interval flag
        fit: u32,
    },
    /// Subframe 3: the second half of the orbit.
    Three(GpsOrbitB),
    /// Page 18 of subframe 4.
    Four {
        /// transmission time, s of the week; not looked at where it is written
        second: u32,
        /// ionospheric parameters
        ion: GpsIon,
    },
}

/// The content of an I/NAV word.
#[derive(Clone, Copy, Debug, PartialEq, Eq, Hash)]
pub enum Word {
    /// Word type 1.
    One(GalWord1),
    /// Word type 2.
    Two(GalWord2),
    /// Word type 3.
    Three(GalWord3),
    /// Word type 4.
    Four(GalWord4),
    /// Word type 5.
    Five {
        /// Galileo week number modulo 4096
        wn: u32,
        /// transmission time, s of the week
        second: u32,
        /// delays and health
        health: GalHealth,
        /// ionospheric parameters
        ion: GalIon,
    },
}

/// The ratio of a circle's circumference to its diameter, as the standards give it.
#[allow(clippy::approx_constant)]
pub const PI: f64 = 3.1415926535898;

/// An orbit and its clock in SI units, angles in radians.
#[derive(Clone, Copy, Debug, Default, PartialEq)]
pub struct Orbit {
    /// time of the ephemeris, s of the week toe_week
    pub toe: f64,
    /// time of the clock's data, s of that week; below 0 or from 604,800 on in the week before or behind
    pub toc: f64,
    /// clock bias, s
    pub af0: f64,
    /// clock drift, s/s
    pub af1: f64,
    /// clock drift rate, s/s^2
    pub af2: f64,
    /// group delays, s: of GPS TGD and 0; of Galileo BGD of E1 and E5a, and of E1 and E5b
    pub group: [f64; 2],
    /// square root of the semi-major axis, m^(1/2)
    pub root_a: f64,
    /// eccentricity
    pub e: f64,
    /// mean anomaly at toe, rad
    pub m0: f64,
    /// correction to the mean motion, rad/s
    pub delta_n: f64,
    /// longitude of the ascending node at the start of the week, rad
    pub omega0: f64,
    /// inclination at toe, rad
    pub i0: f64,
    /// argument of perigee, rad
    pub omega: f64,
    /// rate of the right ascension, rad/s
    pub omega_dot: f64,
    /// rate of the inclination, rad/s
    pub idot: f64,
    /// sine correction to the orbit's radius, m
    pub crs: f64,
    /// cosine correction to the orbit's radius, m
    pub crc: f64,
    /// sine correction to the argument of latitude, rad
    pub cus: f64,
    /// cosine correction to the argument of latitude, rad
    pub cuc: f64,
    /// sine correction to the inclination, rad
    pub cis: f64,
    /// cosine correction to the inclination, rad
    pub cic: f64,
}

/// A number times a power of two, which is exact.
fn scaled<N: Into<f64>>(number: N, power: i32) -> f64 {
    number.into() * 2f64.powi(power)
}

/// The time of the clock's data that is at most half a week from toe; both in s of a week.
fn near(toc: f64, toe: f64) -> f64 {
    match toc - toe {
        apart if apart > 302400.0 => toc - 604800.0,
        apart if apart < -302400.0 => toc + 604800.0,
        _ => toc,
    }
}

impl Gps {
    /// The orbit and its clock in SI units.
    pub fn orbit(&self) -> Orbit {
        let mut o = Orbit::default();
        o.toe = 16.0 * f64::from(self.a.toe);
        o.toc = near(16.0 * f64::from(self.clock.toc), o.toe);
        o.af0 = scaled(self.clock.af0, -31);
        o.af1 = scaled(self.clock.af1, -43);
        o.af2 = scaled(self.clock.af2, -55);
        o.group[0] = scaled(self.clock.tgd, -31);
        o.group[1] = 0.0;
        o.root_a = scaled(self.a.root_a, -19);
        o.e = scaled(self.a.e, -33);
        o.m0 = scaled(self.a.m0, -31) * PI;
        o.delta_n = scaled(self.a.delta_n, -43) * PI;
        o.omega0 = scaled(self.b.omega0, -31) * PI;
        o.i0 = scaled(self.b.i0, -31) * PI;
        o.omega = scaled(self.b.omega, -31) * PI;
        o.omega_dot = scaled(self.b.omega_dot, -43) * PI;
        o.idot = scaled(self.b.idot, -43) * PI;
        o.crs = scaled(self.a.crs, -5);
        o.crc = scaled(self.b.crc, -5);
        o.cus = scaled(self.a.cus, -29);
        o.cuc = scaled(self.a.cuc, -29);
        o.cis = scaled(self.b.cis, -29);
        o.cic = scaled(self.b.cic, -29);
        o
    }
}

impl Gal {
    /// The orbit and its clock in SI units.
    pub fn orbit(&self) -> Orbit {
        let mut o = Orbit::default();
        o.toe = 60.0 * f64::from(self.w1.toe);
        o.toc = near(60.0 * f64::from(self.w4.toc), o.toe);
        o.af0 = scaled(self.w4.af0, -34);
        o.af1 = scaled(self.w4.af1, -46);
        o.af2 = scaled(self.w4.af2, -59);
        o.group[0] = scaled(self.health.bgd_a, -32);
        o.group[1] = scaled(self.health.bgd_b, -32);
        o.root_a = scaled(self.w1.root_a, -19);
        o.e = scaled(self.w1.e, -33);
        o.m0 = scaled(self.w1.m0, -31) * PI;
        o.delta_n = scaled(self.w3.delta_n, -43) * PI;
        o.omega0 = scaled(self.w2.omega0, -31) * PI;
        o.i0 = scaled(self.w2.i0, -31) * PI;
        o.omega = scaled(self.w2.omega, -31) * PI;
        o.omega_dot = scaled(self.w3.omega_dot, -43) * PI;
        o.idot = scaled(self.w2.idot, -43) * PI;
        o.crs = scaled(self.w3.crs, -5);
        o.crc = scaled(self.w3.crc, -5);
        o.cus = scaled(self.w3.cus, -29);
        o.cuc = scaled(self.w3.cuc, -29);
        o.cis = scaled(self.w4.cis, -29);
        o.cic = scaled(self.w4.cic, -29);
        o
    }
}
