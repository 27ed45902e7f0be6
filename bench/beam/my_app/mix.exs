# SPDX-License-Identifier: Apache-2.0
defmodule MyApp.MixProject do
  use Mix.Project

  def project do
    [
      app: :my_app,
      version: "0.1.0",
      elixir: "~> 1.14",
      deps: [{:distnode, path: System.fetch_env!("CARRIER")}]
    ]
  end

  def application, do: [mod: {MyApp, []}, extra_applications: [:logger]]
end
