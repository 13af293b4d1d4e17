//! A small wallet server: three accounts in one arena, and fare modules that nobody trusts. Copy what you need.
//! Every line it prints is checked; the exit status is 1 where one is not as the example says.

use qhobuziya::{answer, read, run, Ran, Refusal, Session, Stop, Window, WINDOW_ADDRESS};
use std::process::ExitCode;

/// A card is what a module finds in its window: four numbers of 64 bits, at these offsets.
const BALANCE: usize = 0;
const TIME: usize = 8;
const ZONES: usize = 16;
const FARE: usize = 24;
const CARD_LENGTH: usize = 32;

/// What a module may ask the host: the codes of its SYSCALLs.
const DONE: Stop = Stop::Syscall(0);
const ASK_TIME: Stop = Stop::Syscall(1);
const ASK_ZONES: Stop = Stop::Syscall(2);

/// Of one run, and of one journey: a module may also ask without end.
const BUDGET: u64 = 1_000;
const TURNS: usize = 8;

const PRICE: u64 = 250;
const NOW: u64 = 1_767_254_400;

/// Asks for the time and the zones, writes the journey into the card, and takes the fare from the balance.
const FARE_MODULE: [u32; 12] = [
    0x1480000C, // lu12i.w  r12, 0x40000    the window's guest address
    0x002B0001, // syscall  1               the time, in r4
    0x29C02184, // st.d     r4, r12, 8
    0x002B0002, // syscall  2               the zones, in r4
    0x29C04184, // st.d     r4, r12, 16
    0x02C3E805, // addi.d   r5, r0, 250     the price of a zone
    0x001D9485, // mul.d    r5, r4, r5
    0x29C06185, // st.d     r5, r12, 24
    0x28C00186, // ld.d     r6, r12, 0
    0x001194C6, // sub.d    r6, r6, r5
    0x29C00186, // st.d     r6, r12, 0
    0x002B0000, // syscall  0               done
];

/// Adds up the card's bytes in r4.
const SUM_MODULE: [u32; 8] = [
    0x1480000C, // lu12i.w  r12, 0x40000
    0x02C0800D, // addi.d   r13, r0, 32     bytes that are left
    0x2A00018E, // ld.bu    r14, r12, 0
    0x0010B884, // add.d    r4, r4, r14
    0x02C0058C, // addi.d   r12, r12, 1
    0x02FFFDAD, // addi.d   r13, r13, -1
    0x47FFF1BF, // bnez     r13, -16        back to ld.bu
    0x002B0000, // syscall  0
];

/// Tries to read the balance of the account behind its own.
const NOSY_MODULE: [u32; 3] = [
    0x1480000C, // lu12i.w  r12, 0x40000
    0x28C08184, // ld.d     r4, r12, 32     the first byte behind the window
    0x002B0000, // syscall  0
];

struct Account {
    name: &'static str,
    offset: usize,
    zones: u64,
}

const AYANDA: Account = Account {
    name: "Ayanda",
    offset: 5,
    zones: 3,
};
const BONGANI: Account = Account {
    name: "Bongani",
    offset: 37,
    zones: 1,
};
const CHIPO: Account = Account {
    name: "Chipo",
    offset: 69,
    zones: 2,
};

/// The arena, and whether every line so far was as the example says.
struct Server {
    arena: [u8; 101],
    right: bool,
}

/// Code is bytes. A server has them from a file; here they are made from words, lowest byte first.
fn load(words: &[u32]) -> Vec<u8> {
    words.iter().flat_map(|word| word.to_le_bytes()).collect()
}

impl Server {
    /// Prints a line of the story, and says so where it does not hold.
    fn tell(&mut self, holds: bool, line: String) {
        self.right &= holds;
        println!("{}{line}", if holds { "" } else { "NOT SO: " });
    }

    fn card(&mut self, who: &Account) -> &mut [u8] {
        &mut self.arena[who.offset..who.offset + CARD_LENGTH]
    }

    fn on_card(&mut self, who: &Account, field: usize) -> u64 {
        u64::from_le_bytes(self.card(who)[field..field + 8].try_into().expect("eight bytes"))
    }

    fn top_up(&mut self, who: &Account, balance: u64) {
        self.card(who)[BALANCE..BALANCE + 8].copy_from_slice(&balance.to_le_bytes());
    }

    fn run(&mut self, code: &[u8], who: &Account, session: &Session, budget: u64) -> Result<Ran, Refusal> {
        run(
            code,
            &mut self.arena,
            Window {
                offset: who.offset,
                length: CARD_LENGTH,
            },
            session,
            budget,
        )
    }

    /// Runs and answers in turn, as long as the module asks what the host knows.
    fn serve(&mut self, code: &[u8], who: &Account) -> Result<Ran, Refusal> {
        let mut ran = self.run(code, who, &Session::start(), BUDGET)?;
        for _ in 0..TURNS {
            let (what, value) = match ran.stop {
                ASK_TIME => ("time", NOW),
                ASK_ZONES => ("zones", who.zones),
                _ => break,
            };
            let answered = answer(code, &ran.session, value);
            self.tell(answered.is_ok(), format!("{}: asked for the {what}, answered {value}", who.name));
            ran = self.run(code, who, &answered?, BUDGET)?;
        }
        Ok(ran)
    }

    fn journey(&mut self, who: &Account) -> Result<(), Refusal> {
        let (before, fare) = (self.on_card(who, BALANCE), who.zones * PRICE);
        let ran = self.serve(&load(&FARE_MODULE), who)?;
        let total = ran.session.total;
        self.tell(ran.stop == DONE && total == 9, format!("{}: done after {total} steps", who.name));
        let card = [BALANCE, TIME, ZONES, FARE].map(|field| self.on_card(who, field));
        let line = format!("{}: the card has the journey: fare {}, balance {}", who.name, card[3], card[0]);
        self.tell(card == [before - fare, NOW, who.zones, fare], line);
        Ok(())
    }

    /// The budget is spent in the middle: the session goes into a file, and comes back from it later. Its card stays in the arena.
    fn pause_and_go_on(&mut self, who: &Account) -> Result<(), Refusal> {
        let code = load(&SUM_MODULE);
        // 16 bytes for those who help customers.
        let session = Session {
            note: Some(*b"ticket 000004711"),
            ..Session::start()
        };
        let paused = self.run(&code, who, &session, 50)?;
        self.tell(
            paused.stop == Stop::BudgetSpent && paused.steps == 50,
            format!("{}: paused after {} steps", who.name, paused.steps),
        );
        let file = paused.session.to_bytes()?;
        self.tell(file.len() == 285, format!("{}: a file of {} bytes", who.name, file.len()));
        let session = read(&file).map_err(|error| error.refusal)?;
        self.tell(
            session == paused.session,
            format!("{}: read back, the same session with its note", who.name),
        );
        let ran = self.run(&code, who, &session, BUDGET)?;
        let sum = self.card(who).iter().map(|byte| u64::from(*byte)).sum();
        let (result, total) = (ran.session.regs[4], ran.session.total);
        let holds = ran.stop == DONE && result == sum && total == 162;
        self.tell(
            holds,
            format!("{}: gone on, the bytes' sum is {result} after {total} steps", who.name),
        );
        Ok(())
    }

    fn look_next_door(&mut self, who: &Account) -> Result<(), Refusal> {
        let ran = self.run(&load(&NOSY_MODULE), who, &Session::start(), BUDGET)?;
        let behind = WINDOW_ADDRESS + CARD_LENGTH as u64;
        let holds = ran.stop == Stop::DataAddress(behind) && ran.session.regs[4] == 0;
        self.tell(
            holds,
            format!("{}: stopped at guest address {behind:#x}, nothing was read", who.name),
        );
        Ok(())
    }

    /// A card that is not all inside the arena: the call is refused, and nothing has happened.
    fn misplace(&mut self) {
        let lost = Account {
            name: "Lost",
            offset: self.arena.len() - CARD_LENGTH + 1,
            zones: 1,
        };
        match self.run(&load(&FARE_MODULE), &lost, &Session::start(), BUDGET) {
            Err(refusal) => self.tell(
                refusal == Refusal::WindowPlace,
                format!("{}: refused with {}: {refusal}", lost.name, refusal.number()),
            ),
            Ok(ran) => self.tell(false, format!("{}: refused, but it ran: {:?}", lost.name, ran.stop)),
        }
    }

    fn story(&mut self) -> Result<(), Refusal> {
        self.top_up(&AYANDA, 5_000);
        self.top_up(&BONGANI, 1_200);
        self.top_up(&CHIPO, 800);
        let before = self.card(&BONGANI).to_vec();
        self.journey(&AYANDA)?;
        self.journey(&CHIPO)?;
        self.pause_and_go_on(&CHIPO)?;
        self.look_next_door(&AYANDA)?;
        self.misplace();
        let same = self.card(&BONGANI) == before;
        self.tell(same, format!("{}: between the two, and the card is as it was", BONGANI.name));
        Ok(())
    }
}

fn main() -> ExitCode {
    let mut server = Server {
        arena: [0; 101],
        right: true,
    };
    if let Err(refusal) = server.story() {
        server.tell(false, format!("refused with {}: {refusal}", refusal.number()));
    }
    ExitCode::from(u8::from(!server.right))
}
