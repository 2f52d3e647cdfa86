// The page: a form with a field for a phone number, and a CSV file that is cleaned in a worker.
const at = (id) => document.getElementById(id);
const library = phonenumberProved();
const worker = new Worker(URL.createObjectURL(new Blob([`${phonenumberProved}
const library = phonenumberProved(), ready = library.load();
onmessage = async ({ data }) => {
  try {
    const progress = (done, count) => postMessage({ done, count });
    postMessage(library.cleaned(await ready, data.text, { fallback: data.region, progress }));
  } catch (error) {
    postMessage({ error: error.message });
  }
};`], { type: "text/javascript" })));

library.load().then((phones) => {
  library.define(phones);
  document.body.dataset.ready = "yes";
}, (error) => { at("sent").textContent = error.message; });

at("form").addEventListener("submit", (event) => {
  event.preventDefault();
  at("sent").textContent = `phone=${new FormData(event.target).get("phone")}`;
});

let name = "", began = 0;
async function clean(file) {
  name = file.name;
  began = performance.now();
  at("bar").hidden = false;
  at("bar").removeAttribute("value");
  at("result").replaceChildren();
  worker.postMessage({ text: await file.text(), region: document.querySelector("phone-input").region });
}
worker.onmessage = ({ data }) => {
  if (data.count) return void ([at("bar").max, at("bar").value] = [data.count, data.done]);
  at("bar").hidden = true;
  if (data.error) return void (at("result").textContent = data.error);
  const { counts, text } = data, link = document.createElement("a"), table = document.createElement("table");
  const row = (title, count) => {
    const it = table.insertRow(), head = it.appendChild(document.createElement("th"));
    [head.scope, head.textContent] = ["row", title];
    it.insertCell().textContent = count;
  };
  row("records", counts.records);
  row("valid", counts.valid);
  row("invalid", counts.invalid);
  row("no number", counts.refused);
  for (const [type, count] of Object.entries(counts.types).sort((a, b) => b[1] - a[1])) row(`valid ${type.toLowerCase().replaceAll("_", " ")}`, count);
  link.href = URL.createObjectURL(new Blob([text], { type: "text/csv" }));
  link.download = name.replace(/(\.\w+)?$/, "-clean$1");
  link.textContent = `Save ${link.download}`;
  at("result").append(`${((performance.now() - began) / 1000).toFixed(1)} s`, table, link);
};
at("file").addEventListener("change", (event) => event.target.files[0] && clean(event.target.files[0]));
for (const kind of ["dragover", "dragleave", "drop"])
  at("drop").addEventListener(kind, (event) => {
    event.preventDefault();
    at("drop").classList.toggle("over", kind === "dragover");
    if (kind === "drop" && event.dataTransfer.files[0]) clean(event.dataTransfer.files[0]);
  });
