// The form of the calendar's settings.

import { STEPS, isoDay, lengthText, momentText, today } from "./calendar.js";
import { WEEKDAYS } from "./dates.js";
import { html } from "./svg.js";

// The settings of plain numbers.
const PLAIN = ["step", "start"];

export class CalendarView {
  /** @param {import("./store.js").Store} store */
  constructor(store) {
    this.store = store;
    this.fields = [...document.querySelectorAll("[data-setting]")];
    this.notes = document.getElementById("calendar-notes");
    this.words = document.getElementById("calendar-words");
    this.details = document.getElementById("calendar");
    document.getElementById("step").append(...STEPS.map(({ id, words }) => new Option(words, id)));
    this.days = [1, 2, 3, 4, 5, 6, 0].map((day) => {
      const check = html("input", { type: "checkbox", value: day, change: () => this.edit() });
      document.getElementById("weekdays").append(html("label", {}, check, ` ${WEEKDAYS[day]}`));
      return check;
    });
    for (const field of this.fields) field.addEventListener("input", () => this.edit(field));
  }

  edit(field = null) {
    const settings = { ...this.store.state.settings };
    for (const { dataset, value } of this.fields) {
      settings[dataset.setting] = dataset.setting === "dayFirst" ? value === "true" : value;
    }
    settings.days = this.days.filter((check) => check.checked)
      .map((check) => Number(check.value)).sort();
    const hasNumber = /^\d*$/.test(settings.start);
    if (settings.step !== "plain" && hasNumber) settings.start = isoDay(today());
    else if (settings.step === "plain" && field?.id === "step" && !hasNumber) settings.start = "";
    this.store.change({ settings }, field && `setting ${field.dataset.setting}`);
  }

  /** Shows the state's settings in the form. */
  draw() {
    const { settings } = this.store.state;
    for (const field of this.fields) {
      const value = String(settings[field.dataset.setting]);
      if (field.value !== value) field.value = value;
      const isPlain = settings.step === "plain";
      field.closest("label").hidden = isPlain && !PLAIN.includes(field.dataset.setting);
      if (field.dataset.setting === "start") field.placeholder = isPlain ? "0" : "2025-03-03";
    }
    document.getElementById("weekdays").hidden = settings.step === "plain";
    for (const check of this.days) check.checked = settings.days.includes(Number(check.value));
  }

  /** Shows the calendar that the settings made, or what is wrong with them. */
  show(calendar, faults) {
    const { settings } = this.store.state;
    this.words.textContent = settings.step === "plain" ? `none; all times are plain numbers${
      calendar ? ` from ${momentText(calendar, 0, false)}` : ""}`
      : !calendar ? "needs to be corrected"
        : `from ${momentText(calendar, 0, false)} in steps of ${calendar.stepWords}, `
          + `${lengthText(calendar, calendar.dayMinutes / calendar.stepMinutes)} a day`;
    if (faults.length > 0) this.details.open = true;
    this.notes.replaceChildren(...faults.map(({ field, message }) => html("p",
      { class: "fault", id: `fault-${field}` }, message)));
    for (const field of this.fields) {
      const isWrong = faults.some((fault) => fault.field === field.dataset.setting);
      if (isWrong) field.setAttribute("aria-describedby", `fault-${field.dataset.setting}`);
      else field.removeAttribute("aria-describedby");
      field.toggleAttribute("aria-invalid", isWrong);
    }
  }
}
