// The scale of time: when the answer is yes, and a slider for the moment. In a span of time the answer stays the same. It begins and ends at limits,
// a not-before or a not-after, or has no end there.
import { byId, htmlElement, setText } from "./dom.js";
import { markAsNew } from "./state.js";

// The seconds of a day, and the steps of the slider.
const DAY = 86400, STEPS = 1000;
// The first and the last moment that the scale may show, in seconds from 1970: their years have four digits.
const FIRST = Date.UTC(1000, 0, 1) / 1000, LAST = Date.UTC(9999, 11, 31, 23, 59, 59) / 1000;

/** The seconds from 1970 to a moment in UTC: `YYYY-MM-DD HH:MM:SS`, also with `T` for the space or without seconds. A date that the calendar does not
  * have counts as a later one, as February 30 as March 1 or 2. Another text is NaN. */
function secondsOf(moment) {
  const [, ...parts] = /^(\d+)-(\d+)-(\d+).(\d+):(\d+)(?::(\d+))?/.exec(moment) ?? [];
  // (by setters, since `Date.UTC` takes the years 0 to 99 as 1900 to 1999)
  const date = new Date(0);
  date.setUTCFullYear(Number(parts[0]), Number(parts[1]) - 1, Number(parts[2]));
  date.setUTCHours(Number(parts[3]), Number(parts[4]), Number(parts[5] ?? 0));
  return Math.floor(date.getTime() / 1000);
}

/** The value of the input of the moment, `YYYY-MM-DDTHH:MM:SS` in UTC, for seconds from 1970. */
export function inputValueOf(time) {
  return new Date(time * 1000).toISOString().slice(0, 19);
}

export class Times {
  /** The function `changed` is called when a user has moved the slider. */
  constructor(changed) {
    this.slider = byId("slider");
    this.moment = byId("at");
    this.spans = [];
    // (the ends of the scale, in seconds from 1970)
    this.low = this.high = 0;
    this.slider.addEventListener("input", () => {
      const time = Math.round(this.low + (Number(this.slider.value) / STEPS) * (this.high - this.low));
      this.moment.value = inputValueOf(time);
      this.moveSlider();
      changed();
    });
  }

  /** Shows when the answer is yes, by an answer as `times` of `asking.py` makes it. Hides the scale if that has no spans. */
  show(answer) {
    markAsNew("times");
    byId("slider").closest(".times").hidden = !answer.spans;
    this.spans = answer.spans ?? [];
    this.limits = (answer.limits ?? []).map(secondsOf);
    this.chooseEnds();
    this.draw();
    this.moveSlider();
    setText(byId("span"), this.spansInWords() + (answer.isWhole === false ? " Later limits are left out." : ""));
  }

  /** Chooses the ends of the scale: around the limits and the moment. It keeps them while they hold all of these and the limits are the same. */
  chooseEnds() {
    const chosen = secondsOf(this.moment.value);
    const points = [...this.limits, ...(Number.isNaN(chosen) ? [] : [chosen])];
    const low = Math.min(...points), high = Math.max(...points);
    const key = this.limits.join();
    if (!points.length || (key === this.key && this.low <= low && high <= this.high)) {
      return;
    }
    // (on each side a quarter of the time between the first and the last of them is free, at least 30 days, and the ends are whole days)
    const room = Math.max((high - low) * 0.25, 30 * DAY);
    const inCalendar = (time) => Math.min(LAST, Math.max(FIRST, time));
    this.key = key;
    this.low = inCalendar(Math.floor((low - room) / DAY) * DAY);
    this.high = inCalendar(Math.ceil((high + room) / DAY) * DAY);
  }

  /** Draws the spans as parts of a bar, and the dates at its ends. */
  draw() {
    // (the place of a limit on the bar, in percent from 0 to 100, or `end` where a span has no limit)
    const percent = (time) => Math.min(100, Math.max(0, ((time - this.low) / (this.high - this.low)) * 100));
    const place = (limit, end) => (limit ? percent(secondsOf(limit.moment)) : end);
    byId("bar").replaceChildren(...this.spans.map((span) => {
      const part = htmlElement("i", { class: span.answer === "no" ? "no" : "yes" });
      const begin = place(span.begin, 0);
      part.style.left = `${begin}%`;
      part.style.width = `${place(span.end, 100) - begin}%`;
      return part;
    }));
    setText(byId("first"), inputValueOf(this.low).slice(0, 10));
    setText(byId("last"), inputValueOf(this.high).slice(0, 10));
  }

  /** Puts the slider where the moment is. */
  moveSlider() {
    const time = secondsOf(this.moment.value);
    this.slider.value = String(Math.round(((time - this.low) / (this.high - this.low)) * STEPS));
    this.slider.setAttribute("aria-valuetext", this.moment.value.replace("T", " "));
  }

  /** When the answer is yes, in words: in which spans, at most five of them. Empty if no spans are known. */
  spansInWords() {
    const granted = this.spans.filter((span) => span.answer !== "no");
    if (!this.spans.length) {
      return "";
    }
    if (!granted.length) {
      return "The answer is no at each moment that is shown.";
    }
    const later = granted.length > 5 ? ", and in later spans" : "";
    return `The answer is yes ${granted.slice(0, 5).map(spanInWords).join(", and ")}${later}.`;
  }
}

/** A span of time in words. Its ends are limits as `moments.py` gives them, or nothing. One that ends at a limit with the word `after` still has the
  * limit's moment, and one that ends at a limit with the word `from` does not. */
function spanInWords({ begin, end }) {
  const from = begin && `${begin.word} ${begin.moment}`;
  const until = end && (end.word === "after" ? `until ${end.moment}` : `before ${end.moment}`);
  return [from, until].filter(Boolean).join(" ") || "at every moment";
}
