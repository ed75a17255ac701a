//! Stand-in for ICMP: names that the wire module hands on, and nothing here uses.
pub struct DstUnreachable;
pub struct Message;
pub struct Packet;
pub struct ParamProblem;
pub struct Redirect;
pub struct TimeExceeded;
