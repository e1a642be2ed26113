;; The rows of docs/EDN.md, for clojure_rows.clj.

;; ---- numbers

;; What is read, and its class.
(defn read-as [text]
  (let [value (edn/read-string text)] [value (class value)]))

(row "01, 010"
  (map edn/read-string ["01" "010" "-010"]) => [1 8 -8])

(row "01.5"
  (edn/read-string "01.5") => 1.5)

(row "0x1F, 36rZZ, 0X1F, 36RZZ"
  (map edn/read-string ["0x1F" "36rZZ" "0X1F" "36RZZ"]) => [31 1295 31 1295])

(row "9223372036854775808"
  (read-as "9223372036854775808") => [9223372036854775808N clojure.lang.BigInt]
  (read-as "-9223372036854775808") => [Long/MIN_VALUE Long])

(row "7N, 2M"
  (map read-as ["7N" "2M"]) => [[7N clojure.lang.BigInt] [2M BigDecimal]])

(row "1.5, 1., 1e3"
  (map edn/read-string ["1.5" "1." "1e3"]) => [1.5 1.0 1000.0])

(row "1/2"
  (edn/read-string "1/2") => 1/2)

(row "1#_2"
  (map edn/read-string ["1#_2" "[1#_2]"]) => [1 [1]])

;; ---- names

(defn read-all-as [kind texts]
  (for [text texts]
    (let [value (edn/read-string text)]
      (if (= value (kind (if (= kind keyword) (subs text 1) text))) :yes value))))

(row "'a, a', a'b"
  (read-all-as symbol ["'a" "a'" "a'b"]) => (repeat 3 :yes))

(row "|a|, a|b"
  (read-all-as symbol ["|a|" "a|b"]) => (repeat 2 :yes))

(row "é, :é, aλ: bytes past ASCII"
  (read-all-as symbol ["é" "aλ" "a\u00a0b"]) => (repeat 3 :yes)
  (read-all-as keyword [":é"]) => [:yes])

(row "the bytes 0 to 8, 14 to 27 and 127"
  (let [characters (map char (concat (range 0 9) (range 14 28) [127]))]
    (remove #{:yes} (read-all-as symbol (mapcat #(vector (str % "a") (str "a" % "a")) characters))))
  => [])

(row "a:, :a:, a::b, a:/b"
  (map #(fault (edn/read-string %)) ["a:" ":a:" "a::b" "a:/b"])
  => ["Invalid token: a:" "Invalid token: :a:" "Invalid token: a::b" "Invalid token: a:/b"])

(row ":1"
  (read-all-as keyword [":1" ":1a"]) => (repeat 2 :yes))

(row ".5, a/-1, a/:b, :-1, :#a"
  (read-all-as symbol [".5" "a/-1" "a/:b"]) => (repeat 3 :yes)
  (read-all-as keyword [":-1" ":#a"]) => (repeat 2 :yes))

(row "a/b/c, :a/b/c"
  (read-all-as symbol ["a/b/c"]) => [:yes]
  (read-all-as keyword [":a/b/c"]) => [:yes])

(row ":/, a//"
  (read-all-as symbol ["a//"]) => [:yes]
  (read-all-as keyword [":/"]) => [:yes])

;; ---- strings, and elements that begin with a mark

(row "\"\\101\""
  (edn/read-string "\"\\101\"") => "A")

(row "\"\\ud83d\""
  (map int (edn/read-string "\"\\ud83d\"")) => [0xd83d])

(row "\"\\ud83d\\ude00\""
  (edn/read-string "\"\\ud83d\\ude00\"") => "😀")

(row "\\a, \\newline"
  (map edn/read-string ["\\a" "\\newline"]) => [\a \newline])

(row "#inst \"...\", #uuid \"...\""
  (read-as "#inst \"2020-01-01\"") => [#inst "2020-01-01" java.util.Date]
  (class (edn/read-string "#uuid \"00000000-0000-0000-0000-000000000001\"")) => java.util.UUID)

(row "#my/tag x"
  (fault (edn/read-string "#my/tag x")) => "No reader function for tag my/tag"
  (edn/read-string {:readers {'my/tag str}} "#my/tag x") => "x"
  (edn/read-string {:default vector} "#my/tag x") => '[my/tag x])

(row "##Inf, ##NaN"
  (read-as "##Inf") => [##Inf Double]
  (Double/isNaN (edn/read-string "##NaN")) => true)

(row "#:a{:b 1}"
  (edn/read-string "#:a{:b 1}") => {:a/b 1})

(row "^{:doc \"x\"} a, #^{:doc \"x\"} a"
  (for [text ["^{:doc \"x\"} a" "#^{:doc \"x\"} a"]] (let [value (edn/read-string text)] [value (meta value)]))
  => (repeat 2 ['a {:doc "x"}]))

;; ---- collections and whole texts

(row "(1 2)"
  (read-as "(1 2)") => [[1 2] clojure.lang.PersistentList])

(row "{:b 1 :a 2}"
  (pr-str (edn/read-string "{:b 1 :a 2}")) => "{:b 1, :a 2}"
  (pr-str (edn/read-string "{9 0 8 1 7 2 6 3 5 4 4 5 3 6 2 7 1 8}")) => "{7 2, 1 8, 4 5, 6 3, 3 6, 2 7, 9 0, 5 4, 8 1}")

(row "#{:b :a}"
  (map #(pr-str (edn/read-string %)) ["#{:b :a}" "#{:a :b}" "#{:b :a 7 \"x\"}"]) => ["#{:b :a}" "#{:b :a}" "#{7 \"x\" :b :a}"])

(defn nested [deep] (apply str (concat (repeat deep "[") (repeat deep "]"))))

(row "a nesting of 65"
  (for [deep [65 500]] (= (nested deep) (pr-str (edn/read-string (nested deep))))) => [true true]
  (class (thrown (edn/read-string (nested 1000000)))) => StackOverflowError)

(row "the empty text"
  (edn/read-string "") => nil
  (edn/read-string {:eof :none} "") => :none
  (fault (edn/read-string {} "")) => "EOF while reading")

(row "1 2"
  (map edn/read-string ["1 2" "1 ]"]) => [1 1])

(row "; a, a return, 1"
  (edn/read-string "; a\r1") => 1)

(row "a vertical tab, the bytes 28 to 31, U+2028 and other whitespace past ASCII"
  (map #(edn/read-string (str % "1")) ["\u000b" "\u001c" "\u001d" "\u001e" "\u001f" "\u2028" "\u3000"]) => (repeat 7 1)
  (read-all-as symbol ["\u00a01" "\u20071" "\u202f1"]) => (repeat 3 :yes))

(row "a byte-order mark, U+FEFF, and then 1"
  (edn/read-string "\ufeff1") => (symbol "\ufeff1"))

(row "a lone byte FF"
  (edn/read-string (String. (byte-array [-1]) "UTF-8")) => (symbol "\ufffd"))

;; What both refuse.
(row "If you bring data along"
  (map #(fault (edn/read-string %)) ["{:a 1 :a 2}" "#{1 1}" "{[1] 2 (1) 3}" "@a" "~a" "`a"])
  => ["Duplicate key: :a" "Duplicate key: 1" "Duplicate key: [1]"
      "Invalid leading character: @" "Invalid leading character: ~" "Invalid leading character: `"])
