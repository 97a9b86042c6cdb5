//! A list: a policy, what is lent to its start, and its calls one after another, all by a seed.
//! The kernel table, the run of tables and the devices are the list's own and are edited before every call.

use guard::archive::{
    STATE_DEVICES, STATE_PENDING, STATE_PENDING_FRAME, STATE_PENDING_PAGE, STATE_WORDS,
};
use inputs::Random;
use reference::claim::Call as Listed;

use crate::aim::{policy, policy_for_drivers, sizes, Aim};
use crate::call::{Call, Lent};
use crate::devices::{count, Devices};
use crate::trees::Trees;

pub struct List {
    pub random: Random,
    pub policy: Vec<u8>,
    /// The number of devices that its start is given.
    pub count: u64,
    pub trees: Trees,
    aim: Aim,
    kernel: Vec<u64>,
    devices: Devices,
}

impl List {
    pub fn new(seed: u64) -> List {
        let mut random = Random::new(seed);
        let of_drivers = random.one_in(2);
        let policy = if of_drivers { policy_for_drivers(&mut random) } else { policy(&mut random) };
        let aim = Aim::new(&mut random, &policy, of_drivers);
        let kernel = aim.kernel(&mut random);
        let trees = Trees::new(&mut random, &aim);
        let count = count(&mut random);
        let devices = Devices::new(&mut random, aim.frames());
        List { random, policy, count, trees, aim, kernel, devices }
    }

    pub fn start(&self) -> Call<'_> {
        Call::Start { policy: &self.policy, devices: self.count }
    }

    /// Runs and tables for the start, which has to overwrite them.
    pub fn garbage(&mut self) -> Lent {
        let [v, f, ..] = sizes(&self.policy);
        Lent::garbage(&mut self.random, v, f)
    }

    /// A call, as far as it goes by the number of devices in the state that reaches it, and by what is pending and the frames of pages in
    /// what is lent before any damage.
    pub fn next_call(&mut self, lent: &Lent, state: &[u64]) -> Listed<'_> {
        let List { random, trees, aim, kernel, devices, .. } = self;
        // A state run that was cut short has no such word.
        let count = state.get(STATE_DEVICES).copied().unwrap_or(self.count);
        aim.set_pending(pending_of(&lent.state));
        aim.edit(random, kernel);
        trees.edit(random, aim);
        devices.edit(random, aim.frames());
        let brought = aim.brought(random);
        let tree = trees.lent(random);
        let devices = devices.lent(random, count);
        aim.call(random, lent, &kernel[..brought], tree, devices)
    }
}

/// The pending page and frame of a state run of any words.
pub fn pending_of(state: &[u64]) -> Option<(u64, u64)> {
    let run: &[u64; STATE_WORDS] = state.try_into().ok()?;
    (run[STATE_PENDING] == 1).then_some((run[STATE_PENDING_PAGE], run[STATE_PENDING_FRAME]))
}
