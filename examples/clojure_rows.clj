;; What docs/CLOJURE.md and docs/EDN.md say of Clojure, tried on Clojure: examples/clojure, or clojure clojure_rows.clj
;; The rows are in clojure_calls.clj, for CLOJURE, and clojure_texts.clj, for EDN.
;;
;; A row is a list of forms, each with its value. Tried with Clojure 1.11.1: all values are those that it gives.
;; Prints for each row `ok ROW`, or the forms that gave something else; then how many rows there were. The status is 1 if one failed.
;;
;; A row has the name of one in the tables of these pages: what stands in its first cell, without backquotes. What else the pages
;; say of Clojure has the name of its heading, or of its point in a list. `documents` compares the names.
(require '[clojure.edn :as edn] '[clojure.java.io :as io] '[clojure.string :as string])
(import '(java.io PrintStream))

;; ---- rows

;; A form that takes so many milliseconds has failed. Its thread is left to itself.
(def limit 20000)

;; Runs a function on a thread of its own, without the bindings of this one.
(defn start [f]
  (let [end (promise)]
    (doto (Thread. #(deliver end (try [(f) nil] (catch Throwable e [nil e]))))
      (.setDaemon true)
      (.start))
    end))

;; What a started function returned, or throws what it threw.
(defn outcome [end]
  (let [[value ^Throwable e] @end] (if e (throw e) value)))

(def counts (atom {:rows 0 :failed 0}))

;; What a form gave instead of its value, as text; nil if it gave that. Lazy parts are made on the form's thread too.
(defn difference [f wanted]
  (let [gave #(let [value (f)] (when (not= value wanted) (pr-str value)))
        [text e] (deref (start gave) limit [nil "nothing in time"])]
    (or text (some-> e str))))

(defn complaints [cases]
  (for [[form f wanted] cases
        :let [gave (difference f wanted)]
        :when gave]
    (str "  " (pr-str form) "\n    gave   " gave "\n    wanted " (pr-str wanted))))

;; In UTF-8, whatever the locale.
(def ^PrintStream out (PrintStream. System/out true "UTF-8"))

(defn try-row [row cases]
  (let [lines (doall (complaints cases))]
    (swap! counts #(-> % (update :rows inc) (update :failed + (if (seq lines) 1 0))))
    (.println out (string/join "\n" (cons (str (if (seq lines) "FAILED " "ok ") row) lines)))))

;; (row NAME FORM => VALUE ..)
(defmacro row [row & cases]
  `(try-row ~row (list ~@(for [[form _ wanted] (partition 3 cases)] `['~form (fn [] ~form) ~wanted]))))

;; What is thrown, and its message; nil if nothing is.
(defmacro thrown [& body]
  `(try ~@body nil (catch Throwable e# e#)))

(defmacro fault [& body]
  `(some-> ^Throwable (thrown ~@body) .getMessage))

;; ---- all of them

;; The calls come last: the last of them ends the pools.
(doseq [file ["clojure_texts.clj" "clojure_calls.clj"]]
  (load-file (str (io/file (.getParentFile (.getAbsoluteFile (io/file *file*))) file))))

(let [{:keys [rows failed]} @counts]
  (.println out (str "clojure: " rows " rows, " failed " failed, on Clojure " (clojure-version)))
  (System/exit (if (or (pos? failed) (zero? rows)) 1 0)))
