// The types of what the modules of the page have in common, beside those of messages.d.ts.

/** A lecture that is seen, as the office has to know it. */
interface Seen {
  course: string;
  room: string;
  at: SlotData;
}

/** A slot without its place. */
type Cell = Omit<CellData, "at">;

/** What the seat knows; the module `seat.js` has it. */
interface State {
  /** what the office told at the beginning, the newest picture, and what is asked */
  day: HelloData | null;
  picture: PictureData | null;
  question: QuestionData | null;
  news: NewsData[];
  unseen: Set<number>;
  recent: Map<string, string>;
  closes: number | null;
  /** by how many seconds the clock here is before that of the office */
  ahead: number;
  isOver: boolean;
  /** why nothing can be done now, and what the office said of it */
  lost: string;
  fault: string;
  /** that nothing is heard of the office, and since when */
  old: string;
  waits: string;
}

/** The same for all others, who change nothing of it. */
interface Known extends Readonly<Omit<State, "news" | "unseen" | "recent">> {
  readonly news: readonly NewsData[];
  readonly unseen: ReadonlySet<number>;
  readonly recent: ReadonlyMap<string, string>;
}

/** An act that has its turn when those before it are done. */
type Queue = (act: () => any) => Promise<any>;

/** What the office has answered, or nothing, if it has refused. */
type Found = Partial<TurnData & OffersData & PrintData>;

/** On what acts stand. */
interface Parts {
  app: Known;
  week: import("./static/week.js").Week;
  look: import("./static/look.js").Look;
  /** asks the office */
  turn: (verb: string, told?: object) => Promise<Found>;
  queue: Queue;
  /** goes to the search */
  search: () => void;
  /** nothing is asked any more */
  closed: () => void;
  /** what was new has been seen */
  seen: () => void;
}

/** What can be done at the page. */
interface Acting {
  isHolding: () => boolean;
  told: (slot: SlotData) => [string, string];
  act: (name: string, key?: string) => any;
  toWeek: () => void;
  hover: (slot: SlotData) => void;
  go: (days: number, periods: number) => Promise<any>;
  closeQuestion: (question: number, told: object) => Promise<any>;
  menu: (slot: SlotData) => void;
  part: (part: string) => Promise<any>;
  draft: (number: number) => Promise<any>;
  takeBack: (place: number, edit: string) => Promise<any>;
  makeOne: (edit: string) => Promise<any>;
  more: (slot: SlotData) => Promise<any>;
  tap: (slot: SlotData) => void;
  show: (view: PairData) => Promise<any>;
  pickUp: (slot: SlotData) => Promise<any>;
  place: (course: string) => Promise<any>;
  drop: (slot: SlotData) => Promise<any>;
  layDown: () => Promise<any>;
  answer: (question: number, answer: string | null, more: object) => Promise<any>;
}

/** Debian's TypeScript has these without the event. */
interface HTMLDialogElement {
  oncancel: ((event: Event) => void) | null;
}
