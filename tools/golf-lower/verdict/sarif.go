package verdict

import (
	"crypto/sha256"
	"encoding/hex"
	"encoding/json"
	"fmt"
	"io"
)

// The parts of SARIF 2.1.0 that are written. A leak is a result: its place is that of the wait, a related one that of the start.
type (
	sarifLog struct {
		Schema  string     `json:"$schema"`
		Version string     `json:"version"`
		Runs    []sarifRun `json:"runs"`
	}
	sarifRun struct {
		Tool    sarifTool     `json:"tool"`
		Results []sarifResult `json:"results"`
	}
	sarifTool struct {
		Driver sarifDriver `json:"driver"`
	}
	sarifDriver struct {
		Name  string      `json:"name"`
		Rules []sarifRule `json:"rules"`
	}
	sarifRule struct {
		ID               string       `json:"id"`
		ShortDescription sarifMessage `json:"shortDescription"`
		FullDescription  sarifMessage `json:"fullDescription"`
	}
	sarifMessage struct {
		Text string `json:"text"`
	}
	sarifResult struct {
		RuleID              string            `json:"ruleId"`
		RuleIndex           int               `json:"ruleIndex"`
		Level               string            `json:"level"`
		Message             sarifMessage      `json:"message"`
		Locations           []sarifLocation   `json:"locations"`
		RelatedLocations    []sarifLocation   `json:"relatedLocations,omitempty"`
		PartialFingerprints map[string]string `json:"partialFingerprints"`
	}
	sarifLocation struct {
		ID               int            `json:"id,omitempty"`
		Message          *sarifMessage  `json:"message,omitempty"`
		PhysicalLocation sarifPhysical  `json:"physicalLocation"`
		LogicalLocations []sarifLogical `json:"logicalLocations,omitempty"`
	}
	sarifPhysical struct {
		ArtifactLocation sarifArtifact `json:"artifactLocation"`
		Region           sarifRegion   `json:"region"`
	}
	sarifArtifact struct {
		URI string `json:"uri"`
	}
	sarifRegion struct {
		StartLine   int `json:"startLine"`
		StartColumn int `json:"startColumn"`
	}
	sarifLogical struct {
		FullyQualifiedName string `json:"fullyQualifiedName"`
	}
)

// sarifSchema is where the schema of the version is.
const sarifSchema = "https://json.schemastore.org/sarif-2.1.0.json"

// leakRule is the one rule: each leak is a result of it.
var leakRule = sarifRule{
	ID:               "goroutine-leak",
	ShortDescription: sarifMessage{"A goroutine can never run again"},
	FullDescription: sarifMessage{"The goroutine is blocked, and no goroutine that can still run can reach what it waits on. " +
		"It stays for as long as the process lives, with all that it holds."},
}

// WriteSARIF writes the leaks of the packages for code hosts. A leak that several tests show is one result.
func WriteSARIF(to io.Writer, packages []*Package) error {
	run := sarifRun{Tool: sarifTool{sarifDriver{Name: "golf-go", Rules: []sarifRule{leakRule}}}, Results: []sarifResult{}}
	seen := map[string]bool{}
	for _, p := range packages {
		for _, t := range p.Tests {
			if t.Kind != Leak {
				continue
			}
			for _, g := range t.Goroutines {
				key := fmt.Sprint(g.Key(), g.At)
				if !seen[key] {
					seen[key] = true
					run.Results = append(run.Results, sarifOf(p, t, &g))
				}
			}
		}
	}
	e := json.NewEncoder(to)
	e.SetIndent("", "  ")
	e.SetEscapeHTML(false)
	return e.Encode(sarifLog{Schema: sarifSchema, Version: "2.1.0", Runs: []sarifRun{run}})
}

// sarifOf is the result of a leak. One whose wait is in generated code has the place of the start.
func sarifOf(p *Package, t *Test, g *Goroutine) sarifResult {
	text := fmt.Sprintf("%s leaves a goroutine that can never run again: %s in %s", t.Name, g.Wait, g.At.Function)
	if g.Started != nil {
		text += ", started in " + g.Started.Function
	}
	at := g.At
	if at.Line == 0 && g.Started != nil {
		at = *g.Started
	}
	sum := sha256.Sum256([]byte(p.Path + " " + g.Key()))
	r := sarifResult{
		RuleID:              leakRule.ID,
		Level:               "warning",
		Message:             sarifMessage{text + ". Shown again by: " + g.Again},
		Locations:           []sarifLocation{locationOf(at, "")},
		PartialFingerprints: map[string]string{"leak/v1": hex.EncodeToString(sum[:16])},
	}
	related := func(place *Place, what string) {
		if place != nil && place.Line > 0 {
			l := locationOf(*place, what)
			l.ID = len(r.RelatedLocations) + 1
			r.RelatedLocations = append(r.RelatedLocations, l)
		}
	}
	related(g.Started, "started here")
	for _, t := range g.On {
		for _, made := range t.Made {
			related(&made, t.Name+" is made here")
		}
	}
	return r
}

// locationOf is a place, with what it is.
func locationOf(p Place, what string) sarifLocation {
	l := sarifLocation{PhysicalLocation: sarifPhysical{sarifArtifact{p.slashed()}, sarifRegion{max(p.Line, 1), max(p.Column, 1)}}}
	if what != "" {
		l.Message = &sarifMessage{what}
	}
	if p.Function != "" {
		l.LogicalLocations = []sarifLogical{{p.Function}}
	}
	return l
}
