"""The catalogue of the bridge, as a command adds to it."""
from work_project import PLATFORM, WorkProject
from work_tried import is_refused


def test_a_plan_class_that_the_catalogue_does_not_have(bare: WorkProject) -> None:
    """The fault says what to write, and then it works. What only the bridge refuses names the catalogue."""
    platform = f"{PLATFORM}.mt"
    outcome = bare.app("--platform", platform)
    is_refused(bare, outcome, f'name = "mt" at the end of {bare.catalogue}; ', bare.state())
    with bare.catalogue.open("a") as file:
        file.write('[[plan_class]]\nname = "mt"\n')
    assert bare.app("--platform", platform)[0] == 0
    outcome = bare.app("--command-line", "x" * 5000, name="long")
    is_refused(
        bare, outcome, f"the bridge refuses it: {bare.catalogue} with the new entries: line ", bare.state()
    )


def test_what_an_older_project_lacks_is_added_by_a_command(bare: WorkProject) -> None:
    settings = bare.bridge / "bridge.toml"
    settings.write_text(settings.read_text().partition("[uploads]")[0])
    (bare.folder / "units.toml").unlink()
    before = bare.state()
    advice = "`bsched-project --complete sums` adds what a new project has\n"
    is_refused(
        bare,
        bare.app("--output", "out:1M"),
        f"it has no [uploads], which output files need: {advice}",
        before,
    )
    (bare.folder / "copies").mkdir()
    assert bare.app()[0] == 0
    is_refused(bare, bare.tools("process"), f"into its table [results]; {advice}", bare.state())
