//! A flight: fixes by the library from a plan's start, and the line of each answer.

use crate::fixes::Fix;
use crate::plan::{Plan, Refusal};
use archive::number::{ACCEPTED, COMMAND_CIRCLE, COMMAND_LINE};
use archive::size::{
    ANSWER_FINISHED, ANSWER_HEADING, ANSWER_INDEX, ANSWER_KIND, ANSWER_PHASE, ANSWER_PLACE, ANSWER_REFUSAL,
    ANSWER_SENSE, ANSWER_WORDS, CIRCLE_RADIUS, COMMAND_NUMBERS,
};
use archive::{calls, refusal_words, Answer, Command, State, CIRCLE_CENTRE, LINE_DIRECTION, LINE_START};

/// What a fix was answered.
pub struct Answered {
    words: Answer,
    numbers: Command,
}

/// A command in metres, each place and direction by its north, east and down.
pub enum Path {
    Nothing,
    Line { start: [f32; 3], direction: [f32; 3] },
    Circle { centre: [f32; 3], radius: f32 },
}

/// How the numbers of a command are written.
#[derive(Clone, Copy)]
pub enum Numbers {
    /// The shortest decimals that are read back as the same f32.
    Metres,
    /// The eight hexadecimal digits of the f32's bits.
    Bits,
}

/// What the columns of a flight are.
pub const COLUMNS: &str =
    "# fix NUMBER, line START DIRECTION or circle CENTRE RADIUS sense SENSE (1 clockwise, -1 anticlockwise): north, \
east, down in metres; heading in 1/4096 of a circle, clockwise from north; index, phase, finished: after the fix";

/// The state of a flight.
pub struct Flight {
    state: State,
}

impl Flight {
    pub fn of(plan: &Plan) -> Flight {
        Flight { state: plan.state }
    }

    pub fn fix(&mut self, fix: &Fix) -> Answered {
        let mut answered = Answered { words: [0; ANSWER_WORDS], numbers: [0.0; COMMAND_NUMBERS] };
        calls::fix(&mut self.state, fix.serial, fix.position, &mut answered.words, &mut answered.numbers);
        answered
    }
}

impl Answered {
    pub fn refusal(&self) -> Option<Refusal> {
        let refusal = Refusal { number: self.words[ANSWER_REFUSAL], place: self.words[ANSWER_PLACE] };
        Some(refusal).filter(|refusal| refusal.number != ACCEPTED)
    }

    pub fn path(&self) -> Path {
        let part = |places: [usize; 3]| places.map(|place| self.numbers[place]);
        match self.words[ANSWER_KIND] {
            COMMAND_LINE => Path::Line { start: part(LINE_START), direction: part(LINE_DIRECTION) },
            COMMAND_CIRCLE => Path::Circle { centre: part(CIRCLE_CENTRE), radius: self.numbers[CIRCLE_RADIUS] },
            _ => Path::Nothing,
        }
    }

    /// 1 clockwise, -1 anticlockwise, 0 where the command is no circle.
    fn sense(&self) -> i32 {
        self.words[ANSWER_SENSE] as i32
    }

    pub fn heading(&self) -> u32 {
        self.words[ANSWER_HEADING]
    }

    pub fn phase(&self) -> u32 {
        self.words[ANSWER_PHASE]
    }

    pub fn finished(&self) -> bool {
        self.words[ANSWER_FINISHED] != 0
    }

    /// The command and the heading, or the refusal.
    fn guided(&self, numbers: Numbers) -> String {
        if let Some(refusal) = self.refusal() {
            return format!("refused {} at {}", refusal.number, refusal.place);
        }
        let command = match self.path() {
            Path::Nothing => "nothing".to_string(),
            Path::Line { start, direction } => {
                format!("line{}{}", listed(&start, numbers), listed(&direction, numbers))
            }
            Path::Circle { centre, radius } => {
                format!("circle{}{} sense {}", listed(&centre, numbers), listed(&[radius], numbers), self.sense())
            }
        };
        format!("{command} heading {}", self.heading())
    }

    /// The line of the fix with a number. In bits it is the line that the program `fly` prints; in metres a refusal is said in words too.
    pub fn line(&self, number: usize, numbers: Numbers) -> String {
        let (index, phase, finished) = (self.words[ANSWER_INDEX], self.phase(), self.words[ANSWER_FINISHED]);
        let guided = self.guided(numbers);
        let line = format!("fix {number} {guided} index {index} phase {phase} finished {finished}");
        match (numbers, self.refusal()) {
            (Numbers::Metres, Some(refusal)) => {
                format!("{line}: {}", refusal_words(refusal.number))
            }
            _ => line,
        }
    }
}

/// Numbers with a space before each.
fn listed(values: &[f32], numbers: Numbers) -> String {
    let one = |value: &f32| match numbers {
        Numbers::Metres => format!(" {value}"),
        Numbers::Bits => format!(" {:08x}", value.to_bits()),
    };
    values.iter().map(one).collect()
}
