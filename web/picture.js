// Pictures that the library or the program made, and the control that moves their year.

/** Shows the text of a picture, as it is. Its own styles and names stay within it. */
export function showPicture(place, text) {
  const root = place.shadowRoot ?? place.attachShadow({ mode: "open" });
  const drawn = new DOMParser().parseFromString(text, "image/svg+xml").documentElement;
  const style = document.createElement("style");
  style.textContent = "svg:first-of-type{display:block;width:100%;min-width:46rem;height:auto}";
  const title = drawn.querySelector("title").textContent;
  drawn.setAttribute("role", "img");
  drawn.setAttribute("aria-label", title);
  root.replaceChildren(document.importNode(drawn, true), style);
  return title;
}

/** A year from 1901 to 2199 in a field between two buttons. `moved` is told each year. */
export function yearControl(field, earlier, later, moved) {
  const least = Number(field.min), most = Number(field.max);
  const tell = () => {
    const year = field.valueAsNumber;
    if (!Number.isInteger(year) || year < least || year > most) return;
    earlier.disabled = year === least;
    later.disabled = year === most;
    moved(year);
  };
  const step = (by) => {
    const year = Number.isInteger(field.valueAsNumber) ? field.valueAsNumber + by : new Date().getFullYear();
    field.value = Math.min(most, Math.max(least, year));
    tell();
  };
  field.addEventListener("input", tell);
  earlier.addEventListener("click", () => step(-1));
  later.addEventListener("click", () => step(1));
  return {
    set(year) {
      field.value = Math.min(most, Math.max(least, year));
      tell();
    },
    get year() {
      return field.valueAsNumber;
    },
  };
}
