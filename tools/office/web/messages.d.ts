// Made of message_types.py by tools/page_types.py: the types of all that a page is sent.

type SlotData = [number, number];
type PairData = [string, string];
type OfferData = [number, string, string];
/** What days, periods and slots are called, and what has a name: its code, what it is called. */
interface NamesData {
  days: string[];
  periods: string[];
  slots: string[][];
  named: Record<string, PairData[]>;
}
/** An action, the keys that do it, and what it does in a sentence. */
interface KeyData {
  name: string;
  keys: string[];
  said: string;
  help: string;
}
/** Who sits at a seat. */
interface PersonData {
  seat: number;
  who: string;
  title: string;
}
/** A draft that was accepted. */
interface NewsData {
  number: number;
  seat: number;
  who: string;
  when: string;
  why: string;
  edits: string[];
  slots: SlotData[];
  text: string;
}
interface NoticePrice {
  price?: number;
}
/** What the last step has to say. */
interface NoticeData {
  price?: number;
  code: string;
  text: string;
  isBad: boolean;
}
interface LineData {
  code: string;
  text: string;
}
/** An answer, what stands on its button, and its letter, if it has one. */
interface AnswerData {
  name: string;
  said: string;
  key: string;
}
interface CostRowData {
  label: string;
  was: number | null;
  now: number;
}
interface WhyData {
  label: string;
  text: string;
  doubt: string;
}
interface QuestionMore {
  why?: WhyData;
  costs?: CostRowData[];
}
/** What is to be read, answered, chosen or typed; it has a number. */
interface QuestionData {
  why?: WhyData;
  costs?: CostRowData[];
  number: number;
  title: string;
  lines: LineData[];
  answers: AnswerData[];
  choices: string[];
  canWait: boolean;
  isCareful: boolean;
}
/** A course, and its colour. */
interface CourseData {
  course: string;
  said: string;
  hue: number;
  teacher_said: string;
  told: string;
  students: number;
}
/** A course of which lectures are missing, and where they stood. */
interface MissingData {
  course: string;
  said: string;
  hue: number;
  teacher_said: string;
  told: string;
  students: number;
  count: number;
  stood: string[];
}
interface EditData {
  text: string;
  edit: string;
  price: number | null;
}
/** The draft that is open, and what has become of what it stands on. */
interface DraftData {
  edits: EditData[];
  taken_back: EditData[];
  base: Record<string, number> | null;
  base_total: number | null;
  since: number;
  stale_preview: string;
  left_out: string[];
}
/** What the timetable costs and lacks, and the draft. */
interface StateData {
  costs: Record<string, number>;
  missing: MissingData[];
  draft: DraftData | null;
  blocked: string[];
  ended: string[];
  alarm: string;
}
/** A lecture where it stands, and what it costs there. Who reads is told of no seats. */
interface LectureData {
  course: string;
  said: string;
  hue: number;
  teacher_said: string;
  told: string;
  students: number;
  room: string;
  room_said: string;
  seats: number | null;
  short: number;
  alone: number;
}
interface BlockedData {
  why: string;
  text: string;
}
/** A slot of a week of which there is something to say. */
interface CellData {
  at: SlotData;
  lectures: LectureData[];
  mine: boolean;
  others: string[];
  changed: string;
  now: string[] | null;
  closed: boolean;
  gone: string[];
  working: string[];
  pinned: boolean;
  blocked: BlockedData[];
}
/** A week, and whose it is. */
interface WeekData {
  view: PairData;
  title: string;
  about: string;
  missing: string;
  working: string[];
  cells: CellData[];
}
interface SlotWhy {
  shortly?: string;
  why?: string;
}
/** What a slot offers for what is held, cheapest first. */
interface HeldSlotData {
  shortly?: string;
  why?: string;
  at: SlotData;
  offers: OfferData[];
}
/** What is held, the cheapest slot for it, and the place of the cheapest offer there. */
interface HeldData {
  course: string;
  said: string;
  hue: number;
  teacher_said: string;
  told: string;
  students: number;
  kind: "move" | "swap" | "place";
  about: string;
  hint: string;
  at: SlotData | null;
  room: string | null;
  room_said: string;
  best: SlotData | null;
  place: number;
  slots: HeldSlotData[];
}
/** What a window draws of who reads; later ones have higher numbers. */
interface ReaderPictureData {
  number: number;
  week: WeekData;
}
/** What a window of a seat draws, and where it is to look, if something was chosen. */
interface PictureData {
  number: number;
  week: WeekData;
  goal: SlotData | null;
  state: StateData;
  held: HeldData | null;
}
interface FaultData {
  fault: string;
}
/** The day, when it closes, what time it is, and whether this window was known before. */
interface DayData {
  day: string;
  closes: number | null;
  now: number;
  again: boolean;
}
/** Who sits at the seats of a day. */
interface SeatsData {
  day: string;
  closes: number | null;
  now: number;
  again: boolean;
  people: PersonData[];
}
/** A name is wanted of who sits down; the last one there had this one. */
interface WantsData {
  day: string;
  closes: number | null;
  now: number;
  again: boolean;
  people: PersonData[];
  wants: "name";
  last: string;
  seat: number;
}
/** With what a window of who reads begins. */
interface ReaderHelloData {
  days: string[];
  periods: string[];
  slots: string[][];
  named: Record<string, PairData[]>;
  day: string;
  closes: number | null;
  now: number;
  again: boolean;
  picture: ReaderPictureData;
}
/** With what a window of a seat begins. */
interface HelloData {
  days: string[];
  periods: string[];
  slots: string[][];
  named: Record<string, PairData[]>;
  day: string;
  closes: number | null;
  now: number;
  again: boolean;
  people: PersonData[];
  seat: number;
  name: string;
  keys: KeyData[];
  parts: string[];
  meanings: Record<string, string>;
  farewell: string;
  news: NewsData[];
  picture: PictureData;
  question: QuestionData | null;
  notice: NoticeData;
}
/** A lecture in words, what others have to do with it, and the weeks in which it stands. */
interface AboutLectureData {
  course: string;
  said: string;
  where: string;
  lines: string[];
  notices: string[];
  weeks: [PairData, string][];
}
interface AboutData {
  about: AboutLectureData | null;
}
interface OffersData {
  offers?: OfferData[];
  told?: string[];
}
interface PageData {
  name: string;
  text: string;
}
interface PrintData {
  page: PageData;
  notice: NoticeData;
}
interface ReaderTurnData {
  picture: ReaderPictureData;
}
/** What an act is answered. One that came at the end of a part was not done, and has nothing. */
interface TurnData {
  left?: true;
  notice?: NoticeData;
  question?: QuestionData | null;
  picture?: PictureData;
}
/** To all: when the office closes, that it has, that a new link is needed. */
interface OfficeEventData {
  closes?: number | null;
  over?: true;
  gone?: true;
}
/** To who reads. */
interface ReaderEventData {
  closes?: number | null;
  over?: true;
  gone?: true;
  names?: NamesData;
  picture?: ReaderPictureData;
}
/** To a window of a seat. */
interface EventData {
  closes?: number | null;
  over?: true;
  gone?: true;
  names?: NamesData;
  accepted?: NewsData[];
  people?: PersonData[];
  news?: NewsData[];
  picture?: PictureData;
  state?: StateData;
  question?: QuestionData | null;
  notice?: NoticeData;
  left?: true;
  fault?: string;
  waits?: string;
}
