# Installs Homebrew's formula in the file ARGV[0] into the folder ARGV[1] and runs its test, with a substitute of Homebrew's class.
require "fileutils"
require "pathname"

class Formula
  class << self
    attr_reader :said, :tested
    def method_missing(name, *words, **options) = (@said ||= {})[name] = [words, options]
    def respond_to_missing?(*) = true
    def test(&block) = @tested = block
  end

  def prefix = Pathname.new(ARGV[1])
  def bin = prefix/"bin"
  def share = prefix/"share"
  def rm_r(path) = FileUtils.rm_r(path)
  def system(*words) = Kernel.system(*words.map(&:to_s)) || abort("#{words.join(" ")} fails")
end

load ARGV[0]
formula = Cefindrato.new
formula.install
formula.instance_eval(&Cefindrato.tested)
puts Cefindrato.said.keys.join(" ")
