# Builds the checkers from the checkout in the folder that HOMEBREW_CEFINDRATO names.
class Cefindrato < Formula
  desc "Proved checkers of SAT solvers' proofs and answers"
  head ENV.fetch("HOMEBREW_CEFINDRATO"), using: :git, branch: "main"
  license any_of: ["MIT", "Apache-2.0"]

  depends_on "python"
  depends_on arch: :x86_64
  depends_on :linux

  def install
    system "./install.sh", "--dist", prefix
    rm_r share/"cefindrato"
  end

  test do
    system bin/"varisat_check"
  end
end
