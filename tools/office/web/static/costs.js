// @ts-check
// What the timetable costs: above the week, and before and after a commit, as a table.
import { button, el, find, name, refill } from "./dom.js";
import { counted, delta, kindOf, number, signed, sum } from "./numbers.js";

/** @type {(costs: CostRowData[]) => HTMLElement} */
export function costTable(costs) {
  /** @type {(one: CostRowData, cls?: string) => HTMLElement} */
  const row = ({ label, was, now }, cls) =>
    el(
      "tr",
      { cls },
      el("th", { scope: "row" }, label),
      el("td", {}, was === null ? "" : number(was)),
      el("td", {}, number(now)),
      el(
        "td",
        {},
        was === null || was === now
          ? ""
          : el("span", { cls: `delta ${kindOf(now - was)}` }, signed(now - was))
      )
    );
  const heads = ["before", "after", ""].map((text) => el("th", { scope: "col" }, text));
  return el(
    "table",
    { cls: "sums" },
    el("thead", {}, el("tr", {}, el("td"), heads)),
    el("tbody", {}, costs.slice(0, -1).map((one) => row(one))),
    el("tfoot", {}, row(costs[costs.length - 1]))
  );
}

/** @type {(n: number) => ?HTMLElement} */
const change = (n) => (n ? delta(n) : null);

// what the timetable costs, with its parts, and how the draft changes them
/** @type {(app: Known, acts: Acting) => void} */
export function drawCosts({ picture, day }, acts) {
  const { costs, draft, missing, ended } = picture.state;
  const all = Object.values(costs);
  const base = draft?.base || null;
  const saved = draft && draft.base_total !== null ? sum(all) - draft.base_total : 0;
  const parts = day.parts.map((part) =>
    button(
      part,
      [
        el("span", { cls: "label" }, part),
        " ",
        el("span", { cls: "value" }, number(costs[part] ?? 0)),
        base ? change((costs[part] ?? 0) - base[part]) : null,
      ],
      () => acts.part(part),
      { cls: "part", title: `${day.meanings[part]}: lists them` }
    )
  );
  const value = el("span", { cls: "value" }, number(sum(all)));
  const total = [el("span", { cls: "label" }, "Cost"), value];
  const count = sum(missing.map((one) => one.count));
  refill(
    find("costs"),
    el("div", { cls: "total" }, total, change(saved)),
    parts,
    button(
      "missing",
      [
        el("span", { cls: "label" }, "missing"),
        " ",
        el("span", { cls: "value" }, number(count)),
      ],
      () => acts.act("missing"),
      { cls: `part missing ${count ? "some" : ""}`, title: "goes to the missing lectures" }
    ),
    el("div", { cls: "state" }, draftSaid(draft, ended))
  );
}

/** @type {(draft: ?DraftData, ended: string[]) => any} */
function draftSaid(draft, ended) {
  /** @type {(text: string, cls?: string) => HTMLElement} */
  const pill = (text, cls = "") => el("span", { cls: `pill ${cls}` }, name(text));
  if (ended.length) return pill("draft not accepted", "bad");
  if (!draft) return pill("no draft open");
  return [
    draft.stale_preview ? pill("stale by now", "bad") : null,
    pill(`your draft: ${counted(draft.edits.length, "edit")}`, "open"),
    draft.since ? pill(`${draft.since} accepted since`) : null,
  ];
}
