# Nokogiri's own tree of an HTML document, and libxml2's XPath (ruby-nokogiri).

require "json"
require "nokogiri"

def best(runs)
  given = nil
  times = Array.new(runs) do
    begin_time = Process.clock_gettime(Process::CLOCK_MONOTONIC)
    given = yield
    Process.clock_gettime(Process::CLOCK_MONOTONIC) - begin_time
  end
  [times.min, given]
end

page, selectors, runs = ARGV
html = File.read(page, encoding: "utf-8")
texts = File.readlines(selectors, chomp: true, encoding: "utf-8")
parse, tree = best(runs.to_i) { Nokogiri::HTML(html) }
first, found = best(1) { texts.sum { |text| tree.css(text).size } }
later, = best(runs.to_i) { texts.sum { |text| tree.css(text).size } }
puts JSON.generate(parse: parse, first: first, later: later, found: found)
