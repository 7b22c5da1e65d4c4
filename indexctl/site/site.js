(function () {
  // a button that copies the command beside it
  document.querySelectorAll(".copied").forEach(function (box) {
    var button = document.createElement("button"), text = box.textContent.trim();
    function name(what) {
      button.textContent = what;
      button.setAttribute("aria-label", what + ": " + text);
    }
    if (!navigator.clipboard) { return; }
    button.type = "button";
    name("Copy");
    button.addEventListener("click", function () {
      navigator.clipboard.writeText(text).then(function () {
        name("Copied");
        setTimeout(name, 1500, "Copy");
      }, function () { name("Not copied"); });
    });
    box.append(button);
  });
  var find = document.getElementById("find");
  if (!find) { return; }
  var count = document.getElementById("count"), none = document.getElementById("none"), all = count.textContent;
  var rows = Array.from(document.querySelectorAll(".projects > li")), texts = null, later = 0;
  function show() {
    var words = find.value.toLowerCase().split(/\s+/), found = 0;
    // all texts are read before the first row changes: else the browser lays out the page for each
    texts = texts || rows.map(function (row) { return row.textContent.toLowerCase(); });
    rows.forEach(function (row, at) {
      var has = words.every(function (word) { return texts[at].indexOf(word) >= 0; });
      found += has ? 1 : 0;
      if (row.hidden === has) {
        row.hidden = !has;
      }
    });
    count.textContent = found === rows.length ? all : found + " of " + all;
    none.hidden = found > 0;
    document.querySelector(".projects").hidden = found === 0;
  }
  // the address has what is searched for, so that it can be sent: #q=amber
  function ask() {
    var asked = new URLSearchParams(location.hash.slice(1)).get("q");
    if (asked !== null && asked !== find.value) {
      find.value = asked;
    }
    show();
  }
  function keep() {
    var asked = find.value ? "#" + new URLSearchParams({q: find.value}) : "";
    history.replaceState(null, "", location.pathname + location.search + asked);
  }
  if (!rows.length) { return; }
  find.hidden = false;
  find.addEventListener("input", function () {
    show();
    // a browser refuses an address that changes with each key
    clearTimeout(later);
    later = setTimeout(keep, 300);
  });
  addEventListener("hashchange", ask);
  document.addEventListener("keydown", function (key) {
    if (key.key === "/" && !key.ctrlKey && !key.metaKey && !key.altKey && document.activeElement !== find) {
      key.preventDefault();
      find.focus();
    }
  });
  // a browser that goes back fills in what was searched for
  ask();
})();
